//! Random cases, most of them damaged, compared with what is expected. Seed and number give a case: any one can be put again.

use crate::bounds::{fields_of_norm, hint_of_squares, zeros_behind};
use crate::case::{Calls, Case, Field, Inputs, KINDS, Kind, MAX_TEXT, slip_bytes};
use crate::layout::{full_share, laid_out, put_bits, small_totals, words_below_q};
use crate::pool::{Base, Pair, Pool, SETS};
use crate::random::Random;
use independent::raccoon::{Fields, Params, form_bits, read, write};
use independent::ring::{N, Q};
use independent::slip;
use std::collections::BTreeMap;

/// How often each of [`KINDS`] comes: the quick ones more often.
const WEIGHTS: [usize; 18] = [5, 10, 10, 6, 6, 6, 6, 10, 14, 14, 3, 5, 4, 6, 5, 8, 16, 10];

/// How often each call gave each status, and with how many attempts.
pub type Tally = BTreeMap<(Kind, u32, u32), u64>;

pub struct Fuzz {
    seed: u64,
    pool: Pool,
}

impl Fuzz {
    pub fn new(seed: u64) -> Fuzz {
        Fuzz { seed, pool: Pool::new(seed) }
    }

    /// Case `number`: a well-formed call, most often with some mutations.
    pub fn case(&self, number: u64) -> Case {
        let random = &mut Random(Random(Random(self.seed).word() ^ number).word());
        let kind = KINDS[weighted(random, &WEIGHTS)];
        let set = weighted(random, &[4, 3, 2]);
        let shares = if kind.takes_shares() { weighted(random, &[40, 30, 15, 8, 5, 2]) } else { random.below(2) };
        let base = self.pool.base(set, shares, kind.edition());
        let other = self.pool.base(random.below(SETS.len()), random.below(4), kind.edition());
        let mut case = well_formed(kind, base, random);
        (0..weighted(random, &[25, 45, 20, 10])).for_each(|_| mutate(&mut case, base, other, random));
        // signing and key generation take long, the more so the more shares there are: most of these calls get a wrong length too
        if (kind.signs() || kind.generates()) && random.below(32) >= [7, 5, 3, 1, 1, 1][shares] {
            match one_of(random, kind.fields()) {
                Field::Message => case.resize(Field::Message, 4097, random),
                field => set_length(&mut case, field, other, random),
            }
        }
        case
    }

    /// Puts case `number` to the calls and counts its answer; where it is not the expected one, an error that names the case.
    pub fn put(&self, number: u64, calls: &Calls, tally: &mut Tally) -> Result<(), String> {
        let case = self.case(number);
        let (status, attempts) = case.check(calls).map_err(|difference| {
            let Inputs { set, shares, attempts, .. } = case.inputs;
            let name = format!("{:?}, set {set}, shares {shares}, attempts {attempts}", case.kind);
            format!("seed {}, case {number} ({name}): {difference}", self.seed)
        })?;
        *tally.entry((case.kind, status, attempts)).or_default() += 1;
        Ok(())
    }
}

/// The number of one of the weights, each as likely as it is large.
fn weighted(random: &mut Random, weights: &[usize]) -> usize {
    let mut left = random.below(weights.iter().sum());
    weights
        .iter()
        .position(|&weight| {
            left < weight || {
                left -= weight;
                false
            }
        })
        .expect("less than the sum")
}

fn one_of<T: Copy>(random: &mut Random, from: &[T]) -> T {
    from[random.below(from.len())]
}

/// A place below `n`: the first, the last, or any.
fn place(random: &mut Random, n: usize) -> usize {
    match random.below(4) {
        0 => 0,
        1 => n - 1,
        _ => random.below(n),
    }
}

/// A call that no check refuses for its lengths and numbers.
fn well_formed(kind: Kind, base: &Base, random: &mut Random) -> Case {
    let p = &base.p;
    let mut inputs = Inputs { set: p.kappa as u32, shares: p.d as u32, ..Inputs::default() };
    match kind {
        Kind::SampleUniform => inputs.seeds = uniform_bytes(random),
        Kind::SampleChallenge => inputs.seeds = challenge_bytes(p.omega, random),
        Kind::Lengths => inputs.attempts = 1 + random.below(16) as u32,
        Kind::SignatureBits => (inputs.hint, inputs.response) = hint_and_response(base, random),
        Kind::ReadSlip => {
            inputs.key = key_bytes(kind, p, &base.key);
            inputs.slip = base.slips()[random.below(4)].clone();
        }
        Kind::WriteSlip => return slip_to_write(base, inputs, random),
        _ if kind.signs() => fill_signing(kind, base, &mut inputs, random),
        _ if kind.verifies() => {
            inputs.key = key_bytes(kind, p, &base.key);
            inputs.message = base.message.clone();
            inputs.signature = base.signature.clone();
        }
        _ => {
            let fields = kind.fields();
            let has = |field: Field| fields.contains(&field);
            inputs.key = if has(Field::Key) { key_bytes(kind, p, &base.key) } else { vec![] };
            inputs.words = if has(Field::Words) { base.key.words.clone() } else { vec![] };
            inputs.seeds = if has(Field::Seeds) { random.bytes(p.keygen_bytes()) } else { vec![] };
            inputs.mask_seeds = if has(Field::MaskSeeds) { random.bytes(32) } else { vec![] };
        }
    }
    Case::new(kind, p, inputs, random)
}

/// The bytes of a key as a call takes them: of an expanded key, else the signing key or its front.
fn key_bytes(kind: Kind, p: &Params, key: &Pair) -> Vec<u8> {
    let from = if kind.takes_expanded() { &key.bytes } else { &key.packed };
    from[..kind.length(Field::Key, p, 1)].to_vec()
}

/// Key, message, noise and mask seeds of signing. Some keys have a large secret, some explicit noise is too large.
fn fill_signing(kind: Kind, base: &Base, inputs: &mut Inputs, random: &mut Random) {
    let p = &base.p;
    let attempts = if p.d == 1 { one_of(random, &[1, 1, 1, 2, 2, 2, 3, 3, 4, 16]) } else { one_of(random, &[1, 1, 2, 3]) };
    let key = if random.below(3) == 0 { &base.large } else { &base.key };
    inputs.attempts = attempts as u32;
    inputs.key = key_bytes(kind, p, key);
    if kind.takes_expanded() {
        inputs.words = key.words.clone();
    }
    let length = random.below(300);
    inputs.message = random.bytes(length);
    if kind.fields().contains(&Field::Noise) {
        inputs.noise = (0..attempts).flat_map(|_| explicit_noise(p, random)).collect();
    } else {
        inputs.seeds = random.bytes(attempts * p.noise_bytes());
    }
    inputs.mask_seeds = random.bytes(32 * attempts);
}

/// The explicit noise of one attempt: two times in three its totals are too large.
fn explicit_noise(p: &Params, random: &mut Random) -> Vec<u64> {
    let more = one_of(random, &[0, 1 << 45, 1 << 47]);
    let totals: Vec<u64> = small_totals(p, random).iter().map(|total| (total + more) % Q).collect();
    let others = words_below_q(totals.len() * (p.d - 1), random);
    laid_out(&totals, p.d, &others)
}

/// Bytes for the uniform sampler: lengths around the least and the most that it reads, and more draws of q and above than chance
/// would give.
fn uniform_bytes(random: &mut Random) -> Vec<u8> {
    let length = match random.below(4) {
        0 => random.below(6000),
        1 => 512 * 7 - 3 + random.below(200),
        _ => 777 * 7 - 9 + random.below(40),
    };
    let mut bytes = random.bytes(length);
    let draws = length / 7;
    if random.below(2) == 0 {
        // all below q, the bits above the 49 random
        (0..draws).for_each(|i| put_bits(&mut bytes, 56 * i, 49, random.word() % Q));
    }
    let mut places: Vec<usize> = (0..draws).collect();
    let dropped = one_of(random, &[0, 3, 100, 264, 265, 266, 267]);
    for i in 0..dropped.min(draws) {
        places.swap(i, i + random.below(draws - i));
        put_bits(&mut bytes, 56 * places[i], 49, one_of(random, &[Q, Q + 1, (1 << 49) - 1]));
    }
    bytes
}

/// Bytes for the challenge sampler: lengths around the least and the most that it reads, and few places, so that it drops draws.
fn challenge_bytes(omega: usize, random: &mut Random) -> Vec<u8> {
    let length = match random.below(3) {
        0 => random.below(300),
        1 => (2 * omega + random.below(7)).saturating_sub(3),
        _ => 1088 * 2 - 3 + random.below(7),
    };
    let mut bytes = random.bytes(length);
    let draws = length / 2;
    let places = one_of(random, &[1, omega - 1, omega, omega + 1, 64, N]);
    (0..draws).for_each(|i| put_bits(&mut bytes, 16 * i + 1, 9, random.below(places) as u64));
    if random.below(3) == 0 {
        // one place again and again, the others at the end; sometimes one is lacking
        let first = (draws + random.below(2)).saturating_sub(omega);
        (0..draws).for_each(|i| put_bits(&mut bytes, 16 * i + 1, 9, i.saturating_sub(first) as u64 % N as u64));
    }
    bytes
}

/// Hint and response as a signature has them, or each number of any size, or all alike and at an edge.
fn hint_and_response(base: &Base, random: &mut Random) -> (Vec<i8>, Vec<i64>) {
    let (p, f) = (&base.p, read(&base.p, &base.signature).expect("a signature"));
    match random.below(4) {
        0 => (vec![one_of(random, &HINTS); p.k * N], vec![one_of(random, &RESPONSES); p.l * N]),
        1 => {
            let hint = (0..p.k * N).map(|_| random.any_size() as i8).collect();
            (hint, (0..p.l * N).map(|_| random.any_size()).collect())
        }
        _ => (f.hint.iter().map(|&h| h as i8).collect(), f.response),
    }
}

/// A slip to be written, with a buffer of just its length. The signature is one, or bytes of any kind.
fn slip_to_write(base: &Base, mut inputs: Inputs, random: &mut Random) -> Case {
    let any = random.below(MAX_TEXT);
    let text = one_of(random, &[0, 1, any, any, MAX_TEXT - 1, MAX_TEXT]);
    (inputs.movement, inputs.track, inputs.text) = (random.word() as u16, random.word() as u8, random.bytes(text));
    inputs.signature = match random.below(3) {
        0 => random.bytes(base.p.sig_bytes),
        1 => vec![0; base.p.sig_bytes],
        _ => base.signature.clone(),
    };
    let mut case = Case::new(Kind::WriteSlip, &base.p, inputs, random);
    case.resize(Field::ResultBytes, slip_bytes(&base.p, text), random);
    case
}

/// Numbers at which the code of a hint or of a response gets longer, and the ends of their types.
const HINTS: [i8; 8] = [0, 1, -1, 2, -2, 127, -127, -128];
const RESPONSES: [i64; 12] =
    [0, 1, -1, (1 << 40) - 1, 1 - (1 << 40), 1 << 40, -1 << 40, (1 << 40) + 1, 1 << 62, i64::MAX, -i64::MAX, i64::MIN];

/// What can be done to a call.
#[derive(Clone, Copy)]
enum Mutation {
    Set,
    Shares,
    Attempts,
    /// Attempts, with noise and mask seeds for as many.
    AllAttempts,
    Length(Field),
    Message,
    Contents(Field),
    Coefficient,
    /// A bit of the digest in an expanded key.
    Digest,
    ShareWord,
    NoiseWord,
    /// A number of a hint, or of a response, at an edge.
    Hint,
    Response,
    /// A field of the signature moved, and the signature written anew.
    Moved,
    /// A signature whose sum of squares is at its bound, or just above.
    Norm,
    /// A bit behind the last code of the signature.
    Fill,
    /// A signature that is none, or is of another key.
    Other,
    /// The public key of another.
    OtherKey,
    /// A slip in its leading bytes or in its length, or bytes that are none.
    Slip,
    /// A text of another length, with a buffer for such a slip.
    Text,
}

/// The mutations that a call can be put to.
fn mutations(kind: Kind) -> Vec<Mutation> {
    use Mutation::*;
    let fields = kind.fields();
    let mut all: Vec<Mutation> = fields.iter().map(|&field| Length(field)).collect();
    let bytes = [Field::Key, Field::Message, Field::Signature, Field::Seeds, Field::MaskSeeds, Field::Text, Field::Slip];
    all.extend(bytes.into_iter().filter(|field| fields.contains(field)).map(Contents));
    let has = |field: Field| fields.contains(&field);
    let of_kind: [(bool, &[Mutation]); 13] = [
        (kind.takes_set(), &[Set]),
        (kind.takes_shares(), &[Shares]),
        (has(Field::Key), &[Coefficient]),
        (has(Field::Key) && !kind.verifies(), &[ShareWord]),
        (kind.takes_expanded(), &[Digest]),
        (has(Field::Message), &[Message, Message]),
        (kind.signs(), &[Attempts, AllAttempts]),
        (kind == Kind::Lengths, &[Attempts]),
        (kind == Kind::SignatureBits, &[Hint, Response]),
        (has(Field::Noise), &[NoiseWord]),
        (kind.verifies(), &[Moved, Moved, Norm, Fill, Other]),
        (kind == Kind::ReadSlip, &[OtherKey, Slip, Slip, Slip, Slip, Slip, Slip, Slip, Slip]),
        (kind == Kind::WriteSlip, &[Text, Text]),
    ];
    all.extend(of_kind.into_iter().filter(|(yes, _)| *yes).flat_map(|(_, more)| more));
    all
}

const SET_NUMBERS: [u32; 15] = [0, 1, 64, 127, 128, 129, 191, 192, 193, 255, 256, 257, 384, 128 + (1 << 16), u32::MAX];
const SHARE_NUMBERS: [u32; 16] = [0, 1, 2, 3, 4, 5, 8, 16, 31, 32, 33, 64, 128, 255, 2 + (1 << 16), u32::MAX];

fn mutate(case: &mut Case, base: &Base, other: &Base, random: &mut Random) {
    let p = &base.p;
    match one_of(random, &mutations(case.kind)) {
        Mutation::Set => case.inputs.set = one_of(random, &SET_NUMBERS),
        Mutation::Shares => case.inputs.shares = one_of(random, &SHARE_NUMBERS),
        Mutation::Attempts => case.inputs.attempts = one_of(random, &[0, 1, 2, 16, 17, 1 << 16, u32::MAX]),
        Mutation::AllAttempts => set_attempts(case, p, random),
        Mutation::Length(field) => set_length(case, field, other, random),
        Mutation::Message => {
            let n = one_of(random, &[0, 1, 71, 72, 135, 136, 4095, 4096, 4097, 5000, 70_000]);
            case.resize(Field::Message, n, random);
        }
        Mutation::Contents(field) => damage(case.bytes(field).expect("an input of bytes"), random),
        Mutation::Coefficient => {
            let (at, value) = (place(random, p.k * N), one_of(random, &[0, 124, 124, 125, 126, 127]));
            put_if_there(&mut case.inputs.key, 8 * p.seed_bytes() + 7 * at, 7, value);
        }
        Mutation::Digest => flip(&mut case.inputs.key, p.vk_bytes() + place(random, p.hash_bytes()), random),
        Mutation::ShareWord if case.kind.takes_expanded() => set_word(&mut case.inputs.words, random),
        Mutation::ShareWord => {
            let value = one_of(random, &[0, Q - 1, Q, Q + 1, (1 << 49) - 1]);
            put_if_there(&mut case.inputs.key, full_share(p) + 49 * place(random, p.l * N), 49, value);
        }
        Mutation::NoiseWord => set_word(&mut case.inputs.noise, random),
        Mutation::Hint => put_at(&mut case.inputs.hint, one_of(random, &HINTS), random),
        Mutation::Response => put_at(&mut case.inputs.response, one_of(random, &RESPONSES), random),
        Mutation::Moved => with_signature(case, p, |signature| move_field(signature, p, random)),
        Mutation::Norm => with_signature(case, p, |signature| *signature = signature_of_norm(p, random)),
        Mutation::Fill => with_signature(case, p, |signature| set_fill_bit(signature, p, random)),
        Mutation::Other => with_signature(case, p, |signature| *signature = other_signature(p, other, random)),
        Mutation::OtherKey => case.inputs.key = other.public_key().to_vec(),
        Mutation::Slip => change_slip(&mut case.inputs.slip, base, random),
        Mutation::Text => set_text(case, p, random),
    }
}

/// A text of another length, with a buffer for such a slip.
fn set_text(case: &mut Case, p: &Params, random: &mut Random) {
    let n = one_of(random, &[0, 1, 511, 512, 513, 514, 1024, 65_535, 65_536, 70_000]);
    case.resize(Field::Text, n, random);
    case.resize(Field::ResultBytes, slip_bytes(p, n), random);
}

/// Changes the signature, of a slip that at its end.
fn with_signature(case: &mut Case, p: &Params, change: impl FnOnce(&mut Vec<u8>)) {
    if case.kind == Kind::ReadSlip {
        let slip = &mut case.inputs.slip;
        let mut signature = slip.split_off(slip.len().saturating_sub(p.sig_bytes));
        change(&mut signature);
        slip.append(&mut signature);
    } else {
        change(&mut case.inputs.signature);
    }
}

/// A bit of a slip's leading bytes turned, another length of its text, the slip cut short, something behind it, or bytes that are none.
fn change_slip(slip: &mut Vec<u8>, base: &Base, random: &mut Random) {
    match random.below(6) {
        0 => flip(slip, random.below(10), random),
        1 | 2 => set_text_length(slip, random),
        3 => {
            let any = random.below(slip.len() + 1);
            let at = one_of(random, &[0, 1, 2, 3, 4, 5, 9, 10, 11, any]);
            slip.truncate(at);
        }
        4 => {
            let any = random.below(9000);
            let more = [base.slips()[random.below(4)].clone(), random.bytes(1), random.bytes(any)];
            slip.extend(&more[random.below(3)]);
        }
        _ => *slip = no_slip(random),
    }
}

/// Another text length in a slip, about the limits or one off, sometimes with a text of that length.
fn set_text_length(slip: &mut Vec<u8>, random: &mut Random) {
    let Ok(said) = slip::fields(slip) else { return };
    let was = said.text.len() as u16;
    let length = one_of(random, &[0, 1, 511, 512, 513, 513, 514, 1023, 65_535, was.wrapping_sub(1), was + 1]);
    if random.below(2) == 0 {
        slip.splice(said.text, random.bytes(length.into()));
    }
    slip[8..10].copy_from_slice(&length.to_le_bytes());
}

/// Random bytes, behind none, some or all leading bytes of a slip; some have the length of one.
fn no_slip(random: &mut Random) -> Vec<u8> {
    let text = random.below(MAX_TEXT + 1);
    let of_slip = 10 + text + one_of(random, &[11_524, 14_544, 20_330]);
    let (few, many) = (random.below(40), random.below(21_000));
    let leading = slip::front(random.word() as u16, random.word() as u8, &vec![0; text]).expect("a text of at most 512 bytes");
    let length = one_of(random, &[few, many, of_slip, of_slip]);
    let mut bytes = random.bytes(length);
    let n = one_of(random, &[0, 3, 5, 10, 10]).min(length);
    bytes[..n].copy_from_slice(&leading[..n]);
    bytes
}

/// Another number of attempts, with noise and mask seeds for as many.
fn set_attempts(case: &mut Case, p: &Params, random: &mut Random) {
    let attempts = one_of(random, &[0, 1, 2, 2, 3, 17]);
    case.inputs.attempts = attempts as u32;
    for field in [Field::Seeds, Field::Noise, Field::MaskSeeds] {
        if case.kind.fields().contains(&field) {
            case.resize(field, case.kind.length(field, p, attempts), random);
        }
    }
}

/// Another length: one less, one more, none, twice as much, that of another set and share count, or a large one for a small one.
fn set_length(case: &mut Case, field: Field, other: &Base, random: &mut Random) {
    let n = case.length(field);
    let n = match random.below(6) {
        0 => n.saturating_sub(1),
        1 => n + 1,
        2 => 0,
        3 => 2 * n,
        4 => case.kind.length(field, &other.p, case.inputs.attempts.clamp(1, 16) as usize),
        _ if n < 5000 => 70_000,
        _ => random.below(n),
    };
    case.resize(field, n, random);
}

/// A bit of a byte flipped, where there is such a byte.
fn flip(bytes: &mut [u8], at: usize, random: &mut Random) {
    if let Some(byte) = bytes.get_mut(at) {
        *byte ^= 1 << random.below(8);
    }
}

/// A bit flipped, or a byte or eight of them set.
fn damage(bytes: &mut [u8], random: &mut Random) {
    if bytes.is_empty() {
        return;
    }
    let at = place(random, bytes.len());
    match random.below(4) {
        0 => bytes[at] = 0xff,
        1 => bytes[at..].iter_mut().take(8).for_each(|byte| *byte = 0xff),
        _ => bytes[at] ^= 1 << random.below(8),
    }
}

fn put_if_there(bytes: &mut [u8], from: usize, width: usize, value: u64) {
    if from + width <= 8 * bytes.len() {
        put_bits(bytes, from, width, value);
    }
}

/// Puts a word to an edge of its range, or to any value within.
fn set_word(words: &mut [u64], random: &mut Random) {
    if !words.is_empty() {
        let any = random.word() % Q;
        words[place(random, words.len())] = one_of(random, &[any, any, 0, Q - 1, Q, (1 << 49) - 1, u64::MAX]);
    }
}

/// Puts a number somewhere.
fn put_at<T>(numbers: &mut [T], value: T, random: &mut Random) {
    if !numbers.is_empty() {
        numbers[place(random, numbers.len())] = value;
    }
}

/// The fields of a signature, where it has the right length and they can be read.
fn fields(signature: &[u8], p: &Params) -> Option<Fields> {
    if signature.len() == p.sig_bytes { read(p, signature) } else { None }
}

/// Moves one hint or response of a signature, by a little or over its bound, and writes it anew.
fn move_field(signature: &mut Vec<u8>, p: &Params, random: &mut Random) {
    let Some(mut f) = fields(signature, p) else { return };
    let sign = one_of(random, &[1, -1]);
    if random.below(2) == 0 {
        let (limit, at) = (p.hint_limit() as i64, place(random, f.hint.len()));
        let moved = f.hint[at] + sign;
        f.hint[at] = one_of(random, &[0, moved, sign * limit, sign * (limit + 1), f.hint[at] + 31 * sign]);
    } else {
        let (limit, at) = (p.binf as i64, place(random, f.response.len()));
        let moved = f.response[at] + sign;
        f.response[at] = one_of(random, &[0, moved, sign * limit, sign * (limit + 1), sign * Q as i64]);
    }
    if let Some(written) = write(p, &f) {
        *signature = written;
    }
}

/// The sum of squares is at its bound or just above, by hints alone or with responses: the last coefficient that adds to it stands as early
/// or as late as it can, or anywhere between.
fn signature_of_norm(p: &Params, random: &mut Random) -> Vec<u8> {
    let (in_hint, more) = (random.below(2) == 0, random.below(2) as u64);
    let mut f = if in_hint { hint_of_squares(p, (p.b22 >> 24) + more) } else { fields_of_norm(p, p.b22 + more) };
    let numbers = if in_hint { &mut f.hint } else { &mut f.response };
    let by = place(random, zeros_behind(numbers) + 1);
    numbers.rotate_right(by);
    write(p, &f).expect("a signature that fits")
}

fn set_fill_bit(signature: &mut [u8], p: &Params, random: &mut Random) {
    let Some(f) = fields(signature, p) else { return };
    let from = form_bits(&f).len();
    if from < 8 * signature.len() {
        let at = from + place(random, 8 * signature.len() - from);
        signature[at / 8] |= 1 << (at % 8);
    }
}

/// Zeros, ones, few ones, or a signature of another key.
fn other_signature(p: &Params, other: &Base, random: &mut Random) -> Vec<u8> {
    match random.below(4) {
        0 => vec![0; p.sig_bytes],
        1 => vec![0xff; p.sig_bytes],
        2 => (0..p.sig_bytes).map(|_| (random.word() & random.word() & random.word()) as u8).collect(),
        _ => other.signature.clone(),
    }
}
