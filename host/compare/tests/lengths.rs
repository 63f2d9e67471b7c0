//! What a signing call takes and how many bits a signature has, as the unit tells it (paper 02, request #103). Lengths: all pairs and attempts,
//! numbers about the limits, and against the calls that are lent them. Bits: codes known by hand, any fields, the largest numbers, and fields
//! about the length of a signature. The unit is compared with the independent implementation, and that with its writer; wrong units are noticed.

use compare::bounds::zero_fields;
use compare::expect;
use compare::independent::raccoon::{Edition, Fields, Noise, Params, form_bits, read, signature_bits, write};
use compare::independent::ring::N;
use compare::pool::{SETS, SHARES};
use compare::random::Random;
use compare::unit::{self, Bits, Key, Signing, SigningLengths};

type LengthsCall = fn(u32, u32, u32) -> SigningLengths;
type BitsCall = fn(u32, &[i8], &[i64]) -> Bits;

const SET_NUMBERS: [u32; 13] = [128, 192, 256, 0, 1, 127, 129, 191, 193, 255, 257, 128 + (1 << 16), u32::MAX];
const SHARE_NUMBERS: [u32; 16] = [1, 2, 4, 8, 16, 32, 0, 3, 5, 7, 15, 31, 33, 64, 4 + (1 << 16), u32::MAX];

fn attempt_numbers() -> impl Iterator<Item = u32> {
    (0..=17).chain([32, 255, 256, 1 + (1 << 16), 1 << 31, u32::MAX])
}

fn sets() -> [Params; 3] {
    SETS.map(|set| Params::new(set, 1, Edition::Printed).unwrap())
}

fn pairs() -> impl Iterator<Item = (usize, usize)> {
    SETS.into_iter().flat_map(|set| SHARES.map(|d| (set, d)))
}

fn told(noise_seed_bytes: u64, mask_seed_bytes: u64, work_words: u64) -> SigningLengths {
    SigningLengths { status: 0, noise_seed_bytes, mask_seed_bytes, work_words }
}

fn refused(status: u32) -> SigningLengths {
    SigningLengths { status, ..told(0, 0, 0) }
}

/// The first numbers of which a call does not tell what the independent implementation does.
fn differs(lengths: LengthsCall) -> Option<String> {
    let shares_and_attempts = || SHARE_NUMBERS.into_iter().flat_map(|shares| attempt_numbers().map(move |n| (shares, n)));
    let mut all = SET_NUMBERS.into_iter().flat_map(|set| shares_and_attempts().map(move |(shares, n)| (set, shares, n)));
    all.find(|&(set, shares, n)| lengths(set, shares, n) != expect::lengths(set, shares, n)).map(|numbers| format!("{numbers:?}"))
}

#[test]
fn lengths_of_all_pairs_and_about_the_limits() {
    assert_eq!(differs(unit::lengths), None);
    assert_eq!(unit::lengths(128, 1, 1), told(1152, 32, 15_360));
    assert_eq!(unit::lengths(192, 8, 4), told(36_864, 128, 68_608));
    assert_eq!(unit::lengths(256, 32, 16), told(1_048_576, 512, 308_224));
    let refusals = [((127, 3, 0), 1), ((128, 3, 0), 2), ((128, 4, 0), 6), ((128, 4, 17), 6), ((u32::MAX, u32::MAX, u32::MAX), 1)];
    for ((set, shares, attempts), status) in refusals {
        assert_eq!(unit::lengths(set, shares, attempts), refused(status));
    }
}

/// The forms of signing from seeds.
#[derive(Clone, Copy, Debug)]
enum Form {
    Packed,
    Expanded,
    Kat,
}

/// How many elements a signing call is lent.
#[derive(Clone, Copy, PartialEq, Debug)]
struct Lent {
    noise: usize,
    masks: usize,
    work: usize,
    signature: usize,
}

/// A pair with a key of zeros, which checks 3 to 5 pass, and room for what calls are lent.
struct Signer {
    p: Params,
    packed: Vec<u8>,
    bytes: Vec<u8>,
    words: Vec<u64>,
    seeds: Vec<u8>,
    work: Vec<u64>,
    signature: Vec<u8>,
}

impl Signer {
    fn new(set: usize, d: usize) -> Signer {
        let p = Params::new(set, d, Edition::Printed).unwrap();
        let (packed, bytes, words) = (vec![0; p.sk_bytes()], vec![0; p.expanded_bytes()], vec![0; p.l * d * N]);
        let (seeds, work, signature) = (vec![0; 40 * p.noise_bytes()], vec![0; 2 * p.work_words()], vec![0; 2 * p.sig_bytes]);
        Signer { p, packed, bytes, words, seeds, work, signature }
    }

    /// The status of signing a message that is too long: 9, if nothing before that is refused.
    fn status(&mut self, form: Form, attempts: u32, lent: Lent) -> u32 {
        let (edition, key) = match form {
            Form::Packed => (Edition::Printed, Key::Packed(&self.packed)),
            Form::Expanded => (Edition::Printed, Key::Expanded(&self.bytes, &self.words)),
            Form::Kat => (Edition::Kat, Key::Packed(&self.packed)),
        };
        let (set, shares, message) = (self.p.kappa as u32, self.p.d as u32, &[0; 4097]);
        let (noise, mask_seeds) = (Noise::Seeds(&self.seeds[..lent.noise]), &self.seeds[..lent.masks]);
        let input = Signing { set, shares, attempts, key, message, noise, mask_seeds };
        unit::sign(edition, &input, &mut self.signature[..lent.signature], &mut self.work[..lent.work]).status
    }

    /// Do calls with the lengths told end with 9, and with one of them another end with 7 or 8? Else which do not.
    fn misfit(&mut self, lengths: LengthsCall, form: Form, attempts: u32) -> Option<String> {
        let answer = lengths(self.p.kappa as u32, self.p.d as u32, attempts);
        let [noise, masks, work] = [answer.noise_seed_bytes, answer.mask_seed_bytes, answer.work_words].map(|n| n as usize);
        let right = Lent { noise, masks, work, signature: self.p.sig_bytes };
        let mut cases = vec![(right, if answer.status == 0 { 9 } else { answer.status })];
        if answer.status == 0 {
            let another = |n: usize| [0, n - 1, n + 1, n + n / attempts.max(1) as usize, 2 * n];
            cases.extend(another(noise).map(|noise| (Lent { noise, ..right }, 7)));
            cases.extend(another(masks).map(|masks| (Lent { masks, ..right }, 7)));
            cases.extend(another(work).map(|work| (Lent { work, ..right }, 8)));
            cases.extend(another(right.signature).map(|signature| (Lent { signature, ..right }, 8)));
        }
        let wrong = cases.into_iter().find(|&(lent, status)| self.status(form, attempts, lent) != status);
        wrong
            .map(|(lent, status)| format!("{}-{}, {form:?}, attempts {attempts}: {lent:?}, not {status}", self.p.kappa, self.p.d))
    }
}

/// The first call that does not take the lengths told, of all pairs and attempts.
fn misfits(lengths: LengthsCall) -> Option<String> {
    let forms = [Form::Packed, Form::Expanded, Form::Kat];
    pairs().find_map(|(set, d)| {
        let mut signer = Signer::new(set, d);
        (0..=17).find_map(|attempts| forms.into_iter().find_map(|form| signer.misfit(lengths, form, attempts)))
    })
}

#[test]
fn calls_take_what_is_told() {
    assert_eq!(misfits(unit::lengths), None);
}

/// With explicit noise a call takes the same mask seeds and work buffer.
#[test]
fn explicit_noise_takes_what_is_told() {
    for ((set, d), attempts) in pairs().flat_map(|pair| [1, 3].map(|attempts| (pair, attempts))) {
        let mut signer = Signer::new(set, d);
        let answer = unit::lengths(set as u32, d as u32, attempts);
        let words = vec![0; attempts as usize * signer.p.noise_words()];
        let (masks, work) = (answer.mask_seed_bytes as usize, answer.work_words as usize);
        for key in [Key::Packed(&signer.packed), Key::Expanded(&signer.bytes, &signer.words)] {
            let mut status = |masks: usize, work: usize| {
                let (set, shares, noise, mask_seeds) = (set as u32, d as u32, Noise::Words(&words), &signer.seeds[..masks]);
                let input = Signing { set, shares, attempts, key, message: &[0; 4097], noise, mask_seeds };
                let signature = &mut signer.signature[..signer.p.sig_bytes];
                unit::sign(Edition::Printed, &input, signature, &mut signer.work[..work]).status
            };
            let found = [status(masks, work), status(masks - 1, work), status(masks + 1, work)];
            assert_eq!(found, [9, 7, 7], "{set}-{d}, {attempts}");
            assert_eq!([status(masks, work - 1), status(masks, work + 1)], [8, 8], "{set}-{d}, {attempts}");
        }
    }
}

/// Key generation takes the noise seeds of one attempt, between the seed of the matrix and those of the shares, and the same work buffer.
#[test]
fn key_generation_takes_what_is_told() {
    for (set, d) in pairs() {
        let p = Params::new(set, d, Edition::Printed).unwrap();
        let one = unit::lengths(set as u32, d as u32, 1);
        let (seeds, work) = (one.noise_seed_bytes as usize + d * p.seed_bytes(), one.work_words as usize);
        let status = |seeds: usize, work: usize| {
            let (seeds, mut key, mut work) = (vec![1; seeds], vec![0; p.sk_bytes()], vec![0; work]);
            unit::keygen(Edition::Printed, set as u32, d as u32, &seeds, &[2; 32], &mut key, &mut work)
        };
        let found = [(0, 0), (1, 0), (0, 1)].map(|(more, work_more)| status(seeds + more, work + work_more));
        assert_eq!(found, [0, 7, 8], "{set}-{d}");
        assert_eq!([status(seeds - 1, work), status(seeds, work - 1)], [7, 8], "{set}-{d}");
    }
}

/// Each code by hand: the number, and the bits that it takes.
const HINT_CODES: [(i8, u64); 9] = [(0, 1), (1, 3), (-1, 3), (2, 4), (-3, 5), (126, 128), (127, 129), (-127, 129), (-128, 130)];
const RESPONSE_CODES: [(i64, u64); 15] = [
    (0, 41),
    (1, 42),
    (-1, 42),
    ((1 << 40) - 1, 42),
    (1 - (1 << 40), 42),
    (1 << 40, 43),
    (-1 << 40, 43),
    ((1 << 41) - 1, 43),
    (1 << 41, 44),
    (-(1 << 48), 42 + 256),
    (1 << 62, 42 + (1 << 22)),
    (i64::MAX - 1, 41 + (1 << 23)),
    (i64::MAX, 41 + (1 << 23)),
    (-i64::MAX, 41 + (1 << 23)),
    (i64::MIN, 42 + (1 << 23)),
];

/// Puts fields to a call, between numbers that would count and must stay; else what is wrong.
fn ask(call: BitsCall, set: u32, hint: &[i8], response: &[i64]) -> Result<Bits, String> {
    let lent = || ([&[-128], hint, &[-128]].concat(), [&[i64::MIN], response, &[i64::MIN]].concat());
    let (hints, responses) = lent();
    let found = call(set, &hints[1..=hint.len()], &responses[1..=response.len()]);
    let what = || format!("set {set}, {} hints, {} responses: {found:?}", hint.len(), response.len());
    if std::hint::black_box((hints, responses)) != lent() {
        return Err(format!("{}, and something was written", what()));
    }
    match expect::signature_bits(set, hint, response) {
        expected if expected == found => Ok(found),
        expected => Err(format!("{}, expected: {expected:?}", what())),
    }
}

/// As [`ask`], where the number of bits is known.
fn ask_known(call: BitsCall, p: &Params, hint: &[i8], response: &[i64], bits: u64) -> Result<(), String> {
    let found = ask(call, p.kappa as u32, hint, response)?;
    let right = Bits { status: 0, bits };
    if found == right { Ok(()) } else { Err(format!("set {}: {found:?}, known: {right:?}", p.kappa)) }
}

/// One number that is not 0, at both ends and somewhere between; and all numbers alike.
fn known_codes(call: BitsCall) -> Result<(), String> {
    let mut random = Random(103);
    for p in sets() {
        let (hint, response) = (vec![0; p.k * N], vec![0; p.l * N]);
        let zeros = (2 * p.kappa + p.k * N + 41 * p.l * N) as u64;
        for (value, bits) in HINT_CODES {
            for at in [0, random.below(hint.len()), hint.len() - 1] {
                let mut hint = hint.clone();
                hint[at] = value;
                ask_known(call, &p, &hint, &response, zeros - 1 + bits)?;
            }
        }
        for (value, bits) in RESPONSE_CODES {
            for at in [0, random.below(response.len()), response.len() - 1] {
                let mut response = response.clone();
                response[at] = value;
                ask_known(call, &p, &hint, &response, zeros - 41 + bits)?;
            }
        }
        for (h, z) in HINT_CODES.into_iter().flat_map(|h| RESPONSE_CODES.map(|z| (h, z))) {
            let (hints, responses) = ((p.k * N) as u64, (p.l * N) as u64);
            let bits = 2 * p.kappa as u64 + hints * h.1 + responses * z.1;
            ask_known(call, &p, &vec![h.0; p.k * N], &vec![z.0; p.l * N], bits)?;
        }
    }
    Ok(())
}

/// Fields of every size; lengths and sets that are wrong.
fn any_fields(call: BitsCall) -> Result<(), String> {
    let mut random = Random(104);
    for (p, bits) in sets().into_iter().flat_map(|p| (0..64).map(move |bits| (p, bits))) {
        let hint: Vec<i8> = (0..p.k * N).map(|_| (random.word() as i8) >> (bits % 8)).collect();
        let response: Vec<i64> = (0..p.l * N).map(|_| random.word() as i64 >> bits).collect();
        ask(call, p.kappa as u32, &hint, &response)?;
        let mixed: Vec<i64> = (0..p.l * N).map(|_| random.any_size()).collect();
        ask(call, p.kappa as u32, &hint, &mixed)?;
    }
    let (hint, response) = ([-7; 10 * N], [1 << 50; 10 * N]);
    let lengths = [0, 1, N, 4 * N, 5 * N - 1, 5 * N, 5 * N + 1, 7 * N, 9 * N, 10 * N];
    for set in SET_NUMBERS {
        for (hints, responses) in lengths.into_iter().flat_map(|hints| lengths.map(|responses| (hints, responses))) {
            ask(call, set, &hint[..hints], &response[..responses])?;
        }
    }
    for p in sets() {
        let (k, l) = (p.k * N, p.l * N);
        for (hints, responses) in [(k - 1, l), (k + 1, l), (k, l - 1), (k, l + 1), (k + 1, l - 1), (l, k), (0, 0), (k, 0), (0, l)]
        {
            let found = ask(call, p.kappa as u32, &hint[..hints], &response[..responses])?;
            assert_eq!(found, Bits { status: 13, bits: 0 });
        }
    }
    Ok(())
}

#[test]
fn bits_of_known_codes() {
    assert_eq!(known_codes(unit::signature_bits), Ok(()));
}

#[test]
fn bits_of_any_fields() {
    assert_eq!(any_fields(unit::signature_bits), Ok(()));
    // a set that there is not, though no length is right either
    assert_eq!(unit::signature_bits(129, &[], &[]), Bits { status: 1, bits: 0 });
}

/// Every number alone: none takes more bits than the least of its type, so that no fields take more than all of these.
#[test]
fn largest_numbers_of_bits() {
    let mut random = Random(107);
    for (p, most) in sets().iter().zip([17_180_288_256, 21_475_410_304, 30_065_521_152]) {
        let (mut hint, mut response) = (vec![0; p.k * N], vec![0; p.l * N]);
        let mut bits = |h: i8, z: i64| {
            (hint[9], response[9]) = (h, z);
            ask(unit::signature_bits, p.kappa as u32, &hint, &response).unwrap().bits
        };
        assert_eq!((i8::MIN..=i8::MAX).max_by_key(|&h| bits(h, 0)), Some(i8::MIN));
        let responses = (0..300).map(|_| random.any_size()).chain(RESPONSE_CODES.map(|code| code.0));
        assert_eq!(responses.max_by_key(|&z| bits(0, z)), Some(i64::MIN));
        assert_eq!(ask_known(unit::signature_bits, p, &vec![i8::MIN; p.k * N], &vec![i64::MIN; p.l * N], most), Ok(()));
    }
}

/// The hint as the call takes it.
fn hint_of(f: &Fields) -> Vec<i8> {
    f.hint.iter().map(|&h| h.try_into().expect("a hint of 8 bits")).collect()
}

/// Fields whose bits are so many: some hints, responses below 2^40 in size, and the rest put to a few of these.
fn fields_of_bits(p: &Params, bits: usize, random: &mut Random) -> Fields {
    let mut f = zero_fields(p);
    (0..300).for_each(|_| f.hint[random.below(p.k * N)] = random.below(5) as i64 - 2);
    f.response.fill_with(|| random.any_size() >> 24);
    while form_bits(&f).len() < bits {
        let left = (bits - form_bits(&f).len()) as i64;
        let z = &mut f.response[random.below(p.l * N)];
        // from 0 to 1 the sign is one bit more, else each 2^40 is
        *z += z.signum() * (left.min(1 + random.below(900) as i64) << 40) + i64::from(*z == 0);
    }
    f
}

/// The unit's number is the length of what the writer makes, and the writer fills what has room, and nothing else.
#[test]
fn fields_about_the_length_of_a_signature() {
    let mut random = Random(105);
    for p in sets() {
        let room = 8 * p.sig_bytes;
        for bits in [room - 9, room - 8, room - 7, room - 1, room, room + 1, room + 7, room + 8, room + 9].repeat(3) {
            let f = fields_of_bits(&p, bits, &mut random);
            let what = format!("set {}, {bits} of {room} bits", p.kappa);
            assert_eq!(form_bits(&f).len(), bits, "{what}");
            assert_eq!(ask_known(unit::signature_bits, &p, &hint_of(&f), &f.response, bits as u64), Ok(()), "{what}");
            let written = write(&p, &f);
            assert_eq!(written.is_some(), bits <= room, "{what}");
            if let Some(signature) = written {
                assert_eq!(read(&p, &signature), Some(f), "{what}");
                // a form that the unit's verifier takes
                let status = unit::verify(p.edition, p.kappa as u32, &vec![0; p.vk_bytes()], &[], &signature);
                assert!([15, 16].contains(&status), "{what}: {status}");
            }
        }
    }
}

/// What the independent implementation counts, its writer makes.
#[test]
fn counted_as_written() {
    let mut random = Random(106);
    for (p, bits) in sets().into_iter().flat_map(|p| [14, 20, 23, 24, 30, 63].map(|bits| (p, bits))) {
        let mut f = zero_fields(&p);
        f.hint.fill_with(|| (random.any_size() as i8).into());
        f.response.fill_with(|| random.word() as i64 >> bits);
        let counted = signature_bits(p.kappa, &hint_of(&f), &f.response);
        assert_eq!(counted, Ok(form_bits(&f).len() as u128), "set {}, {bits} bits", p.kappa);
    }
}

fn more(answer: Bits, bits: i64) -> Bits {
    if answer.status == 0 { Bits { bits: answer.bits.wrapping_add_signed(bits), ..answer } } else { answer }
}

fn zeros(hint: &[i8], response: &[i64]) -> i64 {
    (hint.iter().filter(|&&h| h == 0).count() + response.iter().filter(|&&z| z == 0).count()) as i64
}

#[test]
fn wrong_bits_are_noticed() {
    let wrong: [(&str, BitsCall); 8] = [
        ("leaves the hash out", |s, h, z| more(unit::signature_bits(s, h, z), -2 * i64::from(s))),
        ("counts a sign for 0", |s, h, z| more(unit::signature_bits(s, h, z), zeros(h, z))),
        ("leaves signs out", |s, h, z| more(unit::signature_bits(s, h, z), zeros(h, z) - (h.len() + z.len()) as i64)),
        ("takes -2^63 for 2^63 - 1", |s, h, z| {
            let response: Vec<i64> = z.iter().map(|&z| z.max(-i64::MAX)).collect();
            unit::signature_bits(s, h, &response)
        }),
        ("takes -128 for 0", |s, h, z| {
            let hint: Vec<i8> = h.iter().map(|&h| if h == i8::MIN { 0 } else { h }).collect();
            unit::signature_bits(s, &hint, z)
        }),
        ("rounds to bytes", |s, h, z| {
            let answer = unit::signature_bits(s, h, z);
            Bits { bits: answer.bits.next_multiple_of(8), ..answer }
        }),
        ("asks for lengths first", |s, h, z| match unit::signature_bits(s, h, z) {
            answer if ![5 * N, 7 * N, 9 * N].contains(&h.len()) => Bits { status: 13, ..answer },
            answer => answer,
        }),
        ("takes a hint that is too long", |s, h, z| unit::signature_bits(s, &h[..h.len() - usize::from(h.len() % N == 1)], z)),
    ];
    let noticed = |call| known_codes(call).and_then(|()| any_fields(call));
    for (what, call) in wrong {
        assert!(noticed(call).is_err(), "a unit that {what}");
    }
    assert_eq!(noticed(unit::signature_bits), Ok(()));
}

/// The unit's lengths, where nothing is refused with some of those of other numbers.
fn altered(s: u32, d: u32, n: u32, alter: fn(&mut SigningLengths, SigningLengths), other: (u32, u32)) -> SigningLengths {
    let mut answer = unit::lengths(s, d, n);
    if answer.status == 0 {
        alter(&mut answer, unit::lengths(s, other.0, other.1));
    }
    answer
}

/// By the independent implementation; those that tell wrong lengths, or none for a call that is not refused, also by the calls.
#[test]
fn wrong_lengths_are_noticed() {
    let by_calls: [(&str, LengthsCall); 5] = [
        ("counts one mask seed for all attempts", |s, d, n| {
            altered(s, d, n, |answer, one| answer.mask_seed_bytes = one.mask_seed_bytes, (d, 1))
        }),
        ("counts noise seeds of one attempt", |s, d, n| {
            altered(s, d, n, |answer, one| answer.noise_seed_bytes = one.noise_seed_bytes, (d, 1))
        }),
        ("tells the work buffer of one share", |s, d, n| {
            altered(s, d, n, |answer, one| answer.work_words = one.work_words, (1, n))
        }),
        ("allows no attempt", |s, d, n| unit::lengths(s, d, n.max(1))),
        ("refuses 16 attempts", |s, d, n| unit::lengths(s, d, if n == 16 { 17 } else { n })),
    ];
    for (what, call) in by_calls {
        assert!(differs(call).is_some(), "a unit that {what}");
        assert!(misfits(call).is_some(), "a unit that {what}, by the calls");
    }
    let others: [(&str, LengthsCall); 3] = [
        ("tells lengths with a refusal", |s, d, n| match unit::lengths(s, d, n) {
            answer if answer.status == 6 => SigningLengths { status: 6, ..unit::lengths(s, d, 16) },
            answer => answer,
        }),
        ("asks for the share count first", |s, d, n| match unit::lengths(128, d, n).status {
            2 => refused(2),
            _ => unit::lengths(s, d, n),
        }),
        ("reads 16 bits of its numbers", |s, d, n| unit::lengths(s & 0xffff, d & 0xffff, n & 0xffff)),
    ];
    for (what, call) in others {
        assert!(differs(call).is_some(), "a unit that {what}");
    }
}
