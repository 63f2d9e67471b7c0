//! Signing of the proved code: known answers, all 18 pairs of set and share count in every form of key and noise, equal totals at different
//! share counts, keys with another digest, attempts that fail, and each refusal. Status, attempts and signature are compared with the
//! independent implementation, with guards around the result and the work buffer; what was signed is verified.

use compare::independent::masks::Masks;
use compare::independent::raccoon::{
    Edition, Fields, Noise, Params, attempted, check_bounds, expand, form_bits, keygen, read, refresh, sample_u, with_digest,
};
use compare::independent::ring::{N, Q};
use compare::known::{digest, known, word_bytes, words_modulo_q, xof};
use compare::layout::{digest_is_true, full_share, laid_out, put_bits, small_totals, sums, words_below_q};
use compare::pool::{SETS, SHARES};
use compare::random::Random;
use compare::{expect, unit};
use std::collections::BTreeSet;

#[derive(Clone, PartialEq)]
enum Key {
    Packed(Vec<u8>),
    Expanded(Vec<u8>, Vec<u64>),
}

#[derive(Clone, PartialEq)]
enum OwnedNoise {
    Seeds(Vec<u8>),
    Words(Vec<u64>),
}

/// A call's inputs, and the sizes of the buffers that it is lent.
#[derive(Clone, PartialEq)]
struct Call {
    edition: Edition,
    set: u32,
    d: u32,
    attempts: u32,
    key: Key,
    message: Vec<u8>,
    noise: OwnedNoise,
    masks: Vec<u8>,
    signature: usize,
    work: usize,
}

/// The status, the attempts and, with 0, the signature.
type Answer = (u32, u32, Option<Vec<u8>>);

impl Call {
    fn new(p: &Params, key: Key, message: Vec<u8>, noise: OwnedNoise) -> Call {
        let attempts = match &noise {
            OwnedNoise::Seeds(seeds) => seeds.len() / p.noise_bytes(),
            OwnedNoise::Words(words) => words.len() / p.noise_words(),
        };
        let masks = xof("masks", 32 * attempts);
        let (set, d, attempts) = (p.kappa as u32, p.d as u32, attempts as u32);
        Call { edition: p.edition, set, d, attempts, key, message, noise, masks, signature: p.sig_bytes, work: p.work_words() }
    }

    /// What the call is lent to read.
    fn signing(&self) -> unit::Signing<'_> {
        let key = match &self.key {
            Key::Packed(key) => unit::Key::Packed(key),
            Key::Expanded(bytes, words) => unit::Key::Expanded(bytes, words),
        };
        let noise = match &self.noise {
            OwnedNoise::Seeds(seeds) => Noise::Seeds(seeds),
            OwnedNoise::Words(words) => Noise::Words(words),
        };
        let (set, shares, attempts) = (self.set, self.d, self.attempts);
        unit::Signing { set, shares, attempts, key, message: &self.message, noise, mask_seeds: &self.masks }
    }

    /// Runs the unit. The guards and the inputs must be as they were, the result too with a refusal, the work buffer with refusals 1 to 8; else
    /// the work buffer must be zero, and the verifier must accept what was signed, or say 16 to it where the key's digest is false.
    fn run_on(&self, fill: u64) -> Answer {
        const GUARD: u64 = 0x5555_aaaa_1234_5678;
        let mut signature = vec![GUARD as u8; self.signature + 32];
        let mut work = vec![GUARD; self.work + 8];
        let (result, lent) = (16..self.signature + 16, 4..self.work + 4);
        signature[result.clone()].fill(fill as u8);
        work[lent.clone()].fill(fill);
        let inputs = self.clone();
        let (signature_out, work_out) = (&mut signature[result.clone()], &mut work[lent.clone()]);
        let unit::Signed { status, attempts } = unit::sign(self.edition, &inputs.signing(), signature_out, work_out);
        assert!(inputs == *self, "an input was written");
        assert!(
            signature[..16].iter().chain(&signature[result.end..]).all(|&x| x == GUARD as u8),
            "a guard of the result was written"
        );
        assert!(work[..4].iter().chain(&work[lent.end..]).all(|&x| x == GUARD), "a guard of the work buffer was written");
        let left = if (1..=8).contains(&status) { fill } else { 0 };
        assert!(work[lent].iter().all(|&x| x == left), "the work buffer after {status}");
        if status != 0 {
            assert!(signature[result].iter().all(|&x| x == fill as u8), "refusal {status} changed the result");
            return (status, attempts, None);
        }
        let signature = signature[result].to_vec();
        let p = Params::new(self.set as usize, 1, self.edition).unwrap();
        let (key, verdict) = match &self.key {
            Key::Expanded(bytes, _) if !digest_is_true(&p, bytes) => (bytes, 16),
            Key::Packed(key) | Key::Expanded(key, _) => (key, 0),
        };
        assert_eq!(
            unit::verify(self.edition, self.set, &key[..p.vk_bytes()], &self.message, &signature),
            verdict,
            "the verifier"
        );
        (0, attempts, Some(signature))
    }

    fn run(&self) -> Answer {
        self.run_on(0xa7a7_a7a7_a7a7_a7a7)
    }

    /// The answer by the checks of paper 01 in their order and the independent implementation.
    fn expected(&self) -> Answer {
        let (mut signature, mut work) = (vec![0; self.signature], vec![0; self.work]);
        let unit::Signed { status, attempts } = expect::sign(self.edition, &self.signing(), &mut signature, &mut work);
        (status, attempts, (status == 0).then_some(signature))
    }

    /// The answer, which must be the expected one.
    fn checked(&self) -> Answer {
        let answer = self.run();
        assert!(
            answer == self.expected(),
            "{}-{}: {:?} where {:?} was expected",
            self.set,
            self.d,
            short(&answer),
            short(&self.expected())
        );
        answer
    }

    fn numbers(&self) -> (u32, u32) {
        let (status, attempts, _) = self.checked();
        (status, attempts)
    }
}

/// An answer as the file of known answers has it.
fn short((status, attempts, signature): &Answer) -> String {
    format!("{status} {attempts} {}", signature.as_ref().map_or("-".to_string(), |s| digest(s)))
}

/// The words of a stream, modulo q.
fn stream_words(label: &str, n: usize) -> Vec<u64> {
    words_modulo_q(label.as_bytes(), n)
}

fn params(set: usize, d: usize) -> Params {
    Params::new(set, d, Edition::Printed).unwrap()
}

fn signing_key(p: &Params) -> Vec<u8> {
    keygen(p, &xof(&format!("tape {}-{}", p.kappa, p.d), p.keygen_bytes()), Masks::Seed(&xof("mask", 32))).unwrap()
}

fn expanded(p: &Params, key: &[u8]) -> Key {
    Key::Expanded(with_digest(p, &key[..p.vk_bytes()]), expand(p, key).unwrap())
}

/// The call of the known answers for 128-d: two attempts from seeds.
fn known_call(d: usize) -> Call {
    let p = params(128, d);
    let noise = xof(&format!("noise 128-{d}"), 2 * p.noise_bytes());
    Call {
        masks: [xof("mask", 32), xof("mask", 32)].concat(),
        ..Call::new(&p, Key::Packed(signing_key(&p)), xof("message", 100), OwnedNoise::Seeds(noise))
    }
}

/// The noise totals of one attempt of the known answers: of 42 bits, signed.
fn known_totals() -> Vec<u64> {
    let draw = |x: &[u8]| x.iter().rev().fold(0, |sum, &b| sum << 8 | u64::from(b)) % (1 << 42);
    xof("totals 128", 6 * 9 * N).chunks_exact(6).map(|x| (draw(x) + Q - (1 << 41)) % Q).collect()
}

#[test]
fn known_signatures() {
    for d in [1, 2, 4, 8] {
        let p = params(128, d);
        let call = known_call(d);
        assert_eq!(short(&call.run()), known(&format!("128-{d} sign")));
        let Key::Packed(key) = &call.key else { panic!() };
        let fresh = refresh(&p, &expand(&p, key).unwrap(), Masks::Seed(&xof("mask", 32))).unwrap();
        let refreshed = Call { key: Key::Expanded(with_digest(&p, &key[..2256]), fresh), ..call.clone() };
        assert_eq!(short(&refreshed.run()), known(&format!("128-{d} sign refreshed")));
    }
}

#[test]
fn known_explicit_noise() {
    let one = params(128, 1);
    let key = signing_key(&one);
    let secret = expand(&one, &key).unwrap();
    let totals = known_totals();
    let large: Vec<u64> = totals.iter().map(|x| (x + (1 << 47)) % Q).collect();
    for d in [1, 2] {
        let p = params(128, d);
        let words = |label: &str, n: usize| stream_words(&format!("{label} 128-{d}"), n * (d - 1) * N);
        let key = Key::Expanded(with_digest(&p, &key[..2256]), laid_out(&secret, d, &words("split", 4)));
        let (large, small) = (laid_out(&large, d, &words("large", 9)), laid_out(&totals, d, &words("small", 9)));
        for (name, second) in [("large, small", &small), ("large, large", &large)] {
            let noise = OwnedNoise::Words([&large[..], second].concat());
            let call = Call {
                masks: [xof("mask", 32), xof("mask", 32)].concat(),
                ..Call::new(&p, key.clone(), xof("message", 100), noise)
            };
            assert_eq!(short(&call.run()), known(&format!("128-{d} bench {name}")));
        }
    }
}

/// Changes of a call, with the number that refuses it.
type Fault<'a> = (u32, &'a str, Box<dyn Fn(&mut Call)>);

fn change_key(call: &mut Call, packed: impl Fn(&mut Vec<u8>), both: impl Fn(&mut Vec<u8>, &mut Vec<u64>)) {
    match &mut call.key {
        Key::Packed(key) => packed(key),
        Key::Expanded(bytes, words) => both(bytes, words),
    }
}

fn set_coefficient(call: &mut Call, p: &Params, index: usize, value: u64) {
    let (Key::Packed(bytes) | Key::Expanded(bytes, _)) = &mut call.key;
    put_bits(bytes, 8 * p.seed_bytes() + 7 * index, 7, value);
}

/// Puts a word of the full share, or of the expanded key.
fn set_share_word(call: &mut Call, p: &Params, last: bool, value: u64) {
    change_key(
        call,
        |key| put_bits(key, full_share(p) + if last { 49 * (p.l * N - 1) } else { 0 }, 49, value),
        |_, words| *if last { words.last_mut() } else { words.first_mut() }.unwrap() = value,
    );
}

#[test]
fn known_limits() {
    let p = params(128, 2);
    let two = known_call(2);
    let OwnedNoise::Seeds(seeds) = &two.noise else { panic!() };
    let base =
        Call { attempts: 1, noise: OwnedNoise::Seeds(seeds[..p.noise_bytes()].to_vec()), masks: xof("mask", 32), ..two.clone() };
    let Key::Packed(key) = base.key.clone() else { panic!() };
    let with_expanded = Call { key: expanded(&p, &key), ..base.clone() };
    let Key::Expanded(bytes, words) = &with_expanded.key else { panic!() };
    let many = |n: u32| {
        let noise = xof("noise 128-2", n as usize * p.noise_bytes());
        Call { attempts: n, noise: OwnedNoise::Seeds(noise), masks: vec![5; 32 * n as usize], ..base.clone() }
    };
    let small = laid_out(&known_totals(), 2, &stream_words("small 128-2", 9 * N));
    let explicit = |words: &[u64]| Call { noise: OwnedNoise::Words(words.to_vec()), ..with_expanded.clone() };
    let coefficient = |index: usize, value: u64| {
        let mut call = base.clone();
        set_coefficient(&mut call, &p, index, value);
        call
    };
    let word = |call: &Call, last: bool, value: u64| {
        let mut call = call.clone();
        set_share_word(&mut call, &p, last, value);
        call
    };
    let message = |n: usize| Call { message: xof("long", n), ..base.clone() };
    let calls = [
        ("as it stands", base.clone()),
        ("set 129", Call { set: 129, ..base.clone() }),
        ("d 3", Call { d: 3, ..base.clone() }),
        ("set 129, d 3", Call { set: 129, d: 3, ..base.clone() }),
        ("key one short", Call { key: Key::Packed(key[1..].to_vec()), ..base.clone() }),
        ("key of one share", Call { key: known_call(1).key, ..base.clone() }),
        ("public coefficient 0 is 124", coefficient(0, 124)),
        ("public coefficient 0 is 125", coefficient(0, 125)),
        ("last public coefficient is 127", coefficient(5 * N - 1, 127)),
        ("share word 0 is q-1", word(&base, false, Q - 1)),
        ("share word 0 is q", word(&base, false, Q)),
        ("last share word is q", word(&base, true, Q)),
        ("opened, word 0 is q-1", word(&with_expanded, false, Q - 1)),
        ("opened, word 0 is q", word(&with_expanded, false, Q)),
        ("opened, last word is q", word(&with_expanded, true, Q)),
        ("opened key as signing key", Call { key: Key::Packed([&bytes[..], &word_bytes(words)].concat()), ..base.clone() }),
        ("tries 0", many(0)),
        ("tries 17", many(17)),
        ("tries 16", many(16)),
        ("noise one short", Call { noise: OwnedNoise::Seeds(seeds[..p.noise_bytes() - 1].to_vec()), ..base.clone() }),
        ("mask one short", Call { masks: vec![0; 31], ..base.clone() }),
        ("result one long", Call { signature: p.sig_bytes + 1, ..base.clone() }),
        ("work one short", Call { work: p.work_words() - 1, ..base.clone() }),
        ("message empty", message(0)),
        ("message 4096", message(4096)),
        ("message 4097", message(4097)),
        ("work short, message 4097", Call { work: p.work_words() - 1, ..message(4097) }),
        ("bench", explicit(&small)),
        ("bench, last word q", explicit(&[&small[..small.len() - 1], &[Q]].concat())),
        ("bench, one word short", explicit(&small[1..])),
        (
            "seeds in bench form",
            explicit(
                &seeds[..p.noise_bytes()]
                    .chunks_exact(8)
                    .map(|x| u64::from_le_bytes(x.try_into().unwrap()))
                    .collect::<Vec<u64>>(),
            ),
        ),
    ];
    for (name, call) in calls {
        assert_eq!(short(&call.checked()), known(&format!("128-2 sign {name}")), "{name}");
    }
}

/// The noise totals of the seeds of one attempt: over shares and repetitions, modulo q.
fn seed_totals(p: &Params, seeds: &[u8]) -> Vec<u64> {
    let mut totals = vec![0u64; (p.l + p.k) * N];
    for (number, seed) in seeds.chunks_exact(p.seed_bytes()).enumerate() {
        let (poly, t, j) = (number / p.d / p.rep, number / p.d % p.rep, number % p.d);
        let index = if poly < p.l { poly } else { poly - p.l };
        let sample = sample_u([117, t as u8, index as u8, j as u8, 0, 0, 0, 0], seed, p.uw);
        totals[poly * N..(poly + 1) * N].iter_mut().zip(sample).for_each(|(sum, x)| *sum = (*sum + x) % Q);
    }
    totals
}

#[test]
fn all_sets_and_share_counts_in_every_form() {
    let mut random = Random(60);
    for set in SETS {
        for d in SHARES {
            let p = params(set, d);
            let key = signing_key(&p);
            let length = random.below(300);
            let (message, seeds) = (random.bytes(length), random.bytes(p.noise_bytes()));
            let words = words_below_q((p.l + p.k) * (d - 1) * N, &mut random);
            let explicit = OwnedNoise::Words(laid_out(&seed_totals(&p, &seeds), d, &words));
            let seeds = OwnedNoise::Seeds(seeds);
            let packed = Call::new(&p, Key::Packed(key.clone()), message.clone(), seeds.clone());
            let answer = packed.checked();
            assert_eq!((answer.0, answer.1), (0, 1), "{set}-{d}");
            // the same totals in every form, with other masks, whatever the buffers held
            let with_expanded = expanded(&p, &key);
            for (key, noise, fill) in
                [(&with_expanded, &seeds, u64::MAX), (&packed.key, &explicit, 0), (&with_expanded, &explicit, Q)]
            {
                let call = Call { key: key.clone(), noise: noise.clone(), masks: random.bytes(32), ..packed.clone() };
                assert!(call.run_on(fill) == answer, "{set}-{d}: another form");
            }
            let p = Params { edition: Edition::Kat, ..p };
            let kat = Call::new(&p, Key::Packed(signing_key(&p)), message, seeds).checked();
            assert!(kat.0 == 0 && kat.2 != answer.2, "{set}-{d} in the edition of the response files");
        }
    }
}

/// Secret and totals laid out for so many shares; the bytes are a public key and a digest.
fn laid_out_call(p: &Params, bytes: &[u8], secret: &[u64], totals: &[&Vec<u64>], message: &[u8], random: &mut Random) -> Call {
    let mut lay = |x: &[u64]| laid_out(x, p.d, &words_below_q(x.len() * (p.d - 1), random));
    let key = Key::Expanded(bytes.to_vec(), lay(secret));
    let noise = totals.iter().flat_map(|x| lay(x)).collect();
    let mut call = Call::new(p, key, message.to_vec(), OwnedNoise::Words(noise));
    call.masks = random.bytes(32 * totals.len());
    call
}

#[test]
fn equal_totals_at_different_share_counts() {
    let mut random = Random(61);
    for set in SETS {
        let seeded = params(set, 4);
        let key = signing_key(&seeded);
        let (bytes, secret) = (&with_digest(&seeded, &key[..seeded.vk_bytes()]), sums(&expand(&seeded, &key).unwrap(), 4));
        let seeds = random.bytes(2 * seeded.noise_bytes());
        let totals: Vec<Vec<u64>> = seeds.chunks_exact(seeded.noise_bytes()).map(|x| seed_totals(&seeded, x)).collect();
        let message = random.bytes(64);
        // from seeds with the signing key, at four shares
        let first = Call::new(&seeded, Key::Packed(key.clone()), message.clone(), OwnedNoise::Seeds(seeds)).run();
        assert_eq!(first.0, 0);
        let large: Vec<u64> = totals[0].iter().map(|x| (x + (1 << 47)) % Q).collect();
        let later = laid_out_call(&params(set, 1), bytes, &secret, &[&large, &totals[0]], &message, &mut random).run();
        assert!((later.0, later.1) == (0, 2) && later.2 == first.2);
        for d in SHARES {
            let p = params(set, d);
            assert!(
                laid_out_call(&p, bytes, &secret, &[&totals[0], &totals[1]], &message, &mut random).run() == first,
                "{set}-{d}"
            );
            assert!(
                laid_out_call(&p, bytes, &secret, &[&large, &totals[0]], &message, &mut random).run() == later,
                "{set}-{d}, second attempt"
            );
            // a total moved by one gives another signature
            let mut moved = totals[0].clone();
            moved[3] = (moved[3] + 1) % Q;
            let other = laid_out_call(&p, bytes, &secret, &[&moved], &message, &mut random).run();
            assert!(other.0 == 0 && other.2 != first.2, "{set}-{d}, a total moved");
        }
    }
}

/// A key with one bit of its digest turned signs with that digest: as the independent implementation does, not as with the true one, and
/// the verifiers say 16. Units of all share counts that are lent the same public key and digest still agree.
#[test]
fn a_turned_digest() {
    let mut random = Random(66);
    for set in SETS {
        let p = params(set, 2);
        let key = signing_key(&p);
        let (vk, words) = (&key[..p.vk_bytes()], expand(&p, &key).unwrap());
        let (bytes, secret) = (with_digest(&p, vk), sums(&words, 2));
        let (message, totals) = (random.bytes(40), small_totals(&p, &mut random));
        let seeds = OwnedNoise::Seeds(random.bytes(2 * p.noise_bytes()));
        let signed = |key: Key| Call::new(&p, key, message.clone(), seeds.clone()).checked();
        let packed = signed(Key::Packed(key.clone()));
        assert!(packed.0 == 0 && signed(Key::Expanded(bytes.clone(), words.clone())) == packed, "{set}: the true digest");
        for (at, bit) in [(vk.len(), 1), (vk.len() + p.hash_bytes() / 2, 8), (bytes.len() - 1, 0x80)] {
            let mut turned = bytes.clone();
            turned[at] ^= bit;
            let (status, _, signature) = signed(Key::Expanded(turned.clone(), words.clone()));
            assert!(status == 0 && signature != packed.2, "{set}, byte {at}");
            let verdicts = [unit::verify, expect::verify]
                .map(|verify| verify(p.edition, set as u32, vk, &message, signature.as_ref().unwrap()));
            assert_eq!(verdicts, [16; 2], "{set}, byte {at}");
            let mut explicit = |d: usize, bytes: &[u8]| {
                laid_out_call(&params(set, d), bytes, &secret, &[&totals], &message, &mut random).checked()
            };
            let one = explicit(1, &turned);
            assert!(one.0 == 0 && one.2 != explicit(1, &bytes).2, "{set}, byte {at}, explicit noise");
            for d in SHARES {
                assert!(explicit(d, &turned) == one, "{set}-{d}, byte {at}: the same digest in other shares");
            }
        }
    }
}

/// A digest of any kind signs; public key and digest one byte short or long, or the public key alone, get 3.
#[test]
fn digests_and_lengths_of_expanded_keys() {
    for set in SETS {
        let p = params(set, 2);
        let key = signing_key(&p);
        let Key::Expanded(bytes, words) = expanded(&p, &key) else { panic!() };
        let totals = laid_out(&small_totals(&p, &mut Random(67)), 2, &stream_words("others", (p.l + p.k) * N));
        for noise in [OwnedNoise::Seeds(xof("noise", p.noise_bytes())), OwnedNoise::Words(totals)] {
            let call = |bytes: &[u8]| Call::new(&p, Key::Expanded(bytes.to_vec(), words.clone()), vec![7], noise.clone());
            let long = [&bytes[..], &[0]].concat();
            for n in [p.vk_bytes(), bytes.len() - 1, bytes.len() + 1] {
                assert_eq!(call(&long[..n]).numbers(), (3, 0), "{set}: {n} for {}", bytes.len());
            }
            for value in [0, 0xff] {
                let mut any = bytes.clone();
                any[p.vk_bytes()..].fill(value);
                assert_eq!(call(&any).numbers(), (0, 1), "{set}: a digest of {value}");
                put_bits(&mut any, 8 * p.vk_bytes() - 7, 7, 125);
                assert_eq!(call(&any).numbers(), (4, 0), "{set}: a coefficient of 125");
            }
        }
    }
}

/// Totals that fail, each in a way of its own.
fn failing_totals(p: &Params, random: &mut Random) -> [(&'static str, Vec<u64>); 5] {
    let good = small_totals(p, random);
    let w = p.l * N;
    let with = |x: &Vec<u64>, at: usize, value: u64| {
        let mut x = x.clone();
        x[at] = value;
        x
    };
    // responses near zero, and many hints of 1
    let mut squares = vec![0u64; (p.l + p.k) * N];
    squares[w..].iter_mut().take((p.b22 >> 24) as usize + 200).for_each(|x| *x = 1 << 44);
    // rows of four ones in all codes of the response
    let mut long = good.clone();
    long[..w].fill(4 << 40);
    [
        ("one response over its bound", with(&good, 5, p.binf + (1 << 20))),
        ("one hint over its bound", with(&good, w + 7, 5 << 44)),
        ("the sum of squares over its bound", squares),
        ("too long", long),
        ("all too large", good.iter().map(|x| (x + (1 << 47)) % Q).collect()),
    ]
}

#[test]
fn attempts_that_fail() {
    let mut random = Random(62);
    for (set, d) in [(128, 1), (128, 2), (192, 4), (256, 1)] {
        let p = params(set, d);
        let key = signing_key(&p);
        let (bytes, secret) = (&with_digest(&p, &key[..p.vk_bytes()]), sums(&expand(&p, &key).unwrap(), d));
        let good: [Vec<u64>; 3] = std::array::from_fn(|_| small_totals(&p, &mut random));
        let [a, b, c] = &good;
        let bad = failing_totals(&p, &mut random);
        let mut numbers = |totals: &[&Vec<u64>]| laid_out_call(&p, bytes, &secret, totals, b"attempts", &mut random).numbers();
        for (name, x) in &bad {
            let y = &bad[3].1;
            assert_eq!(numbers(&[x, a, b]), (0, 2), "{set}-{d}: {name}, first");
            assert_eq!(numbers(&[y, x, a]), (0, 3), "{set}-{d}: {name}, middle");
            assert_eq!(numbers(&[x, y, x]), (12, 3), "{set}-{d}: {name}, last");
            assert_eq!(numbers(&[x]), (12, 1), "{set}-{d}: {name}, alone");
        }
        let x = &bad[0].1;
        assert_eq!(numbers(&[a, x, b]), (0, 1));
        assert_eq!(numbers(&[b, c, x]), (0, 1));
        assert_eq!(numbers(&[x, c, x]), (0, 2));
        // all 16, and each kind of failing among them
        let mut sixteen: Vec<&Vec<u64>> = bad.iter().map(|(_, x)| x).cycle().take(16).collect();
        assert_eq!(numbers(&sixteen), (12, 16));
        sixteen[15] = c;
        assert_eq!(numbers(&sixteen), (0, 16));
        sixteen[7] = a;
        assert_eq!(numbers(&sixteen), (0, 8));
    }
    // from seeds, with a key that is not the public key's
    let p = params(128, 2);
    for key in [Key::Packed(signing_key(&p)), expanded(&p, &signing_key(&p))] {
        let mut call = Call::new(&p, key, vec![], OwnedNoise::Seeds(random.bytes(5 * p.noise_bytes())));
        set_share_word(&mut call, &p, true, Q - 1);
        assert_eq!(call.numbers(), (12, 5));
    }
}

/// Noise totals that make a signature of about the length that there is: one more bit in so many codes of the response.
fn near_totals(p: &Params, ones: usize, number: u64) -> Vec<u64> {
    let mut totals = small_totals(p, &mut Random(number));
    totals.iter_mut().take(ones).for_each(|x| *x = if *x < Q / 2 { *x + (1 << 40) } else { *x - (1 << 40) });
    totals
}

/// The fields that one attempt of one share comes to, by the independent implementation.
fn fields_of(p: &Params, bytes: &[u8], secret: &[u64], totals: &[u64]) -> Fields {
    let attempts = [(Noise::Words(totals), Masks::Seed(&[0; 32]))];
    let mut all = attempted(p, bytes, secret, b"near", &attempts).expect("a matrix");
    all.next().expect("one attempt").expect("fields")
}

/// How many bits fields take, by the unit.
fn counted(p: &Params, fields: &Fields) -> u64 {
    let hint: Vec<i8> = fields.hint.iter().map(|&h| h.try_into().expect("a hint of 8 bits")).collect();
    let unit::Bits { status, bits } = unit::signature_bits(p.kappa as u32, &hint, &fields.response);
    assert_eq!(status, 0);
    bits
}

/// Signing fails for length in just the attempts where the number of bits says so (paper 02, request #103): attempts whose fields are within the
/// bounds and near the length, some above it and some not.
#[test]
fn too_long_where_the_number_says_so() {
    for (set, ones) in [(128, 1000), (192, 1310), (256, 1770)] {
        let p = params(set, 1);
        let key = signing_key(&p);
        let (bytes, secret) = (&with_digest(&p, &key[..p.vk_bytes()]), expand(&p, &key).unwrap());
        let mut ends = [0; 2];
        for number in 0..40 {
            let totals = near_totals(&p, ones, number);
            let fields = fields_of(&p, bytes, &secret, &totals);
            assert!(check_bounds(&p, &fields), "{set}, {number}: within the bounds");
            let too_long = counted(&p, &fields) > 8 * p.sig_bytes as u64;
            let status = laid_out_call(&p, bytes, &secret, &[&totals], b"near", &mut Random(64)).numbers().0;
            assert_eq!(status, if too_long { 12 } else { 0 }, "{set}, {number}");
            ends[usize::from(too_long)] += 1;
        }
        assert!(ends.iter().all(|&n| n > 5), "{set}: {ends:?}");
    }
}

/// Signatures of exactly the length that there is, and too long by one bit: the places of these in a search over the numbers of [`Random`].
#[test]
fn length_to_the_bit() {
    for (set, ones, full, over) in [(128, 1000, 88, 32), (192, 1310, 345, 152), (256, 1770, 245, 561)] {
        let p = params(set, 1);
        let key = signing_key(&p);
        let (bytes, secret) = (&with_digest(&p, &key[..p.vk_bytes()]), expand(&p, &key).unwrap());
        let call =
            |d: usize, totals: &[&Vec<u64>]| laid_out_call(&params(set, d), bytes, &secret, totals, b"near", &mut Random(64));
        let (full, over) = (near_totals(&p, ones, full), near_totals(&p, ones, over));
        let answer = call(1, &[&full]).checked();
        let fields = read(&p, &answer.2.expect("a signature")).unwrap();
        assert_eq!(form_bits(&fields).len(), 8 * p.sig_bytes);
        assert_eq!(counted(&p, &fields), 8 * p.sig_bytes as u64);
        let fields = fields_of(&p, bytes, &secret, &over);
        assert_eq!(counted(&p, &fields), 8 * p.sig_bytes as u64 + 1);
        assert!(check_bounds(&p, &fields), "{set}: within the bounds");
        assert_eq!(call(1, &[&over]).numbers(), (12, 1), "{set}: one bit too long");
        assert_eq!(call(2, &[&over, &full]).numbers(), (0, 2), "{set}: one bit too long, then full");
    }
}

/// Sums of squares at the bound and one above it: responses whose squares make up what so many hints of 1 leave, and messages that give just
/// these hints (their places in a search).
#[test]
fn sum_of_squares_at_its_bound() {
    for (set, hints, at, above) in [(128, 640, 20, 113), (192, 1150, 200, 262), (256, 1780, 79, 178)] {
        let p = params(set, 1);
        let key = signing_key(&p);
        let (bytes, secret) = (&with_digest(&p, &key[..p.vk_bytes()]), expand(&p, &key).unwrap());
        let call = |sum: u64, number: u32| {
            let mut totals = vec![0u64; (p.l + p.k) * N];
            let mut rest = sum - (hints << 24);
            for x in totals.iter_mut().take(p.l * N) {
                // half of the bits that do not count leave room for the secret's part of the response
                let root = rest.isqrt().min((p.binf >> 32) - 1);
                rest -= root * root;
                *x = root << 32 | 1 << 31;
            }
            assert_eq!(rest, 0);
            laid_out_call(&p, bytes, &secret, &[&totals], &number.to_le_bytes(), &mut Random(65))
        };
        let fields = read(&p, &call(p.b22, at).checked().2.expect("a signature")).unwrap();
        let squares = |v: &[i64], shift: u32| v.iter().map(|x| (x.unsigned_abs() >> shift).pow(2)).sum::<u64>();
        assert_eq!((squares(&fields.hint, 0) << 24) + squares(&fields.response, 32), p.b22, "{set}: at the bound");
        assert_eq!(call(p.b22 + 1, above).numbers(), (12, 1), "{set}: one above the bound");
    }
}

/// Faults of every buffer and number, each with the check that refuses it.
fn faults(p: &Params) -> Vec<Fault<'static>> {
    let mut all: Vec<Fault> = vec![];
    let mut add = |number: u32, name: &'static str, fault: Box<dyn Fn(&mut Call)>| all.push((number, name, fault));
    for set in [0, 129, 384, 128 + (1 << 16), u32::MAX] {
        add(1, "set", Box::new(move |c| c.set = set));
    }
    for d in [0, 3, 64, 2 + (1 << 16), u32::MAX] {
        add(2, "shares", Box::new(move |c| c.d = d));
    }
    add(3, "key of another set", Box::new(|c| c.set = 192));
    add(3, "key of other shares", Box::new(|c| c.d = 4));
    add(3, "key long", Box::new(|c| change_key(c, |k| k.push(0), |b, _| b.push(0))));
    add(3, "key short", Box::new(|c| change_key(c, |k| k.truncate(k.len() - 1), |b, _| b.truncate(b.len() - 1))));
    add(3, "public key alone", Box::new(|c| change_key(c, |k| k.truncate(2256), |b, _| b.truncate(2256))));
    add(3, "words long", Box::new(|c| change_key(c, |k| k.extend([0; 8]), |_, w| w.push(0))));
    add(3, "words short", Box::new(|c| change_key(c, |k| k.truncate(k.len() - 8), |_, w| w.truncate(w.len() - 1))));
    add(3, "no key", Box::new(|c| change_key(c, |k| k.clear(), |b, _| b.clear())));
    add(3, "no words", Box::new(|c| change_key(c, |k| k.clear(), |_, w| w.clear())));
    for (index, value) in [(0, 125), (777, 126), (p.k * N - 1, 125), (p.k * N - 1, 127)] {
        let p = *p;
        add(4, "coefficient", Box::new(move |c| set_coefficient(c, &p, index, value)));
    }
    for (last, value) in [(false, Q), (true, Q), (true, (1 << 49) - 1)] {
        let p = *p;
        add(5, "share word", Box::new(move |c| set_share_word(c, &p, last, value)));
    }
    add(5, "a word of share 1", Box::new(|c| change_key(c, |k| k[2256 + 16..].fill(0xff), |_, w| w[N + 3] = Q)));
    for attempts in [0, 17, 18, 1 << 16, u32::MAX] {
        add(6, "attempts", Box::new(move |c| c.attempts = attempts));
    }
    add(7, "another attempt", Box::new(|c| c.attempts = 3));
    add(7, "an attempt less", Box::new(|c| c.attempts = 1));
    add(
        7,
        "noise long",
        Box::new(|c| match &mut c.noise {
            OwnedNoise::Seeds(x) => x.push(0),
            OwnedNoise::Words(x) => x.push(0),
        }),
    );
    add(
        7,
        "noise short",
        Box::new(|c| match &mut c.noise {
            OwnedNoise::Seeds(x) => x.truncate(x.len() - 1),
            OwnedNoise::Words(x) => x.truncate(x.len() - 1),
        }),
    );
    add(
        7,
        "no noise",
        Box::new(|c| match &mut c.noise {
            OwnedNoise::Seeds(x) => x.clear(),
            OwnedNoise::Words(x) => x.clear(),
        }),
    );
    for (at, value) in [(0, Q), (5000, Q), (usize::MAX, Q), (usize::MAX, u64::MAX)] {
        add(
            7,
            "noise word",
            Box::new(move |c| match &mut c.noise {
                OwnedNoise::Seeds(x) => x.truncate(x.len() - 16),
                OwnedNoise::Words(x) => {
                    let at = at.min(x.len() - 1);
                    x[at] = value;
                }
            }),
        );
    }
    for n in [0, 31, 32, 63, 65, 96] {
        add(7, "masks", Box::new(move |c| c.masks.resize(n, 1)));
    }
    for n in [0, 1, p.sig_bytes - 1, p.sig_bytes + 1, 2 * p.sig_bytes] {
        add(8, "signature", Box::new(move |c| c.signature = n));
    }
    for n in [0, 1, p.work_words() - 1, p.work_words() + 1, p.work_words() + 512] {
        add(8, "work", Box::new(move |c| c.work = n));
    }
    for n in [4097, 4098, 70_000] {
        add(9, "message", Box::new(move |c| c.message.resize(n, 1)));
    }
    all
}

/// A good call of 128-2 with two attempts, in each form.
fn four_forms() -> [Call; 4] {
    let p = params(128, 2);
    let key = signing_key(&p);
    let seeds = xof("noise", 2 * p.noise_bytes());
    let totals: Vec<u64> = seeds.chunks_exact(p.noise_bytes()).flat_map(|x| seed_totals(&p, x)).collect();
    let words = OwnedNoise::Words(laid_out(&totals, 2, &stream_words("words", 2 * 9 * N)));
    let call = Call::new(&p, Key::Packed(key.clone()), xof("message", 30), OwnedNoise::Seeds(seeds));
    let with_expanded = Call { key: expanded(&p, &key), ..call.clone() };
    [call.clone(), with_expanded.clone(), Call { noise: words.clone(), ..call }, Call { noise: words, ..with_expanded }]
}

#[test]
fn every_refusal() {
    let p = params(128, 2);
    let faults = faults(&p);
    assert_eq!(faults.iter().map(|(number, ..)| *number).collect::<BTreeSet<u32>>(), (1..=9).collect());
    for call in four_forms() {
        assert_eq!(call.numbers(), (0, 1));
        for (number, name, fault) in &faults {
            let mut bad = call.clone();
            fault(&mut bad);
            assert_eq!(bad.numbers(), (*number, 0), "{name}");
        }
    }
    // so does the edition of the response files
    let kat = Params { edition: Edition::Kat, ..p };
    let call = Call { edition: Edition::Kat, key: Key::Packed(signing_key(&kat)), ..four_forms()[0].clone() };
    for (number, name, fault) in &faults {
        let mut bad = call.clone();
        fault(&mut bad);
        assert_eq!(bad.numbers(), (*number, 0), "{name}");
    }
}

/// Two faults in one call: the check that comes first decides.
#[test]
fn the_first_no_decides() {
    let p = params(128, 2);
    let mut random = Random(63);
    let faults = faults(&p);
    for call in four_forms() {
        for first in 1..=9 {
            for second in first + 1..=9 {
                for _ in 0..3 {
                    let mut bad = call.clone();
                    // the second first, as a fault may take the place of another
                    for number in [second, first] {
                        let these: Vec<_> = faults
                            .iter()
                            .filter(|(n, name, _)| *n == number && !(number == 3 && name.starts_with("key of")))
                            .collect();
                        these[random.below(these.len())].2(&mut bad);
                    }
                    assert_eq!(bad.numbers(), (first, 0), "{first} before {second}");
                }
            }
        }
    }
}

#[test]
fn limits_that_pass() {
    for set in SETS {
        let p = params(set, 2);
        let key = signing_key(&p);
        let seeds = xof("limits", 16 * p.noise_bytes());
        let one = Call::new(&p, Key::Packed(key.clone()), vec![], OwnedNoise::Seeds(seeds[..p.noise_bytes()].to_vec()));
        for n in [0, 1, 71, 72, 135, 136, 4095, 4096] {
            let message = xof("long message", n);
            assert_eq!(Call { message: message.clone(), ..one.clone() }.numbers(), (0, 1), "message of {n} bytes");
            assert_eq!(Call { message, key: expanded(&p, &key), ..one.clone() }.numbers(), (0, 1), "message of {n} bytes");
        }
        assert_eq!(Call::new(&p, Key::Packed(key.clone()), vec![], OwnedNoise::Seeds(seeds)).numbers(), (0, 1), "16 attempts");
        // a word q - 1 in key and noise, the sums as they were
        let (secret, totals) = (sums(&expand(&p, &key).unwrap(), 2), seed_totals(&p, &xof("limits", p.noise_bytes())));
        let words = |n: usize| vec![Q - 1; n * N];
        let highest = Key::Expanded(with_digest(&p, &key[..p.vk_bytes()]), laid_out(&secret, 2, &words(p.l)));
        let call = Call::new(&p, highest, vec![], OwnedNoise::Words(laid_out(&totals, 2, &words(p.l + p.k))));
        assert!(call.checked() == one.run(), "words of q - 1");
    }
}
