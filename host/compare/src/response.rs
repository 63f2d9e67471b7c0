//! The submission's response files, made through the unit.

use crate::unit::{self, Bits, Key, Signing};
use independent::drbg::{Drbg, tests};
use independent::raccoon::{Noise, Params, form_bits, read};
use std::fmt::Write;
use std::thread;

/// What one test of a response file is made from: the seed that it names, and the draws that follow from it.
pub struct Inputs {
    pub entropy: [u8; 48],
    pub message: Vec<u8>,
    pub key_seeds: Vec<u8>,
    /// The noise seeds of the first attempt at signing.
    pub noise_seeds: Vec<u8>,
}

/// The first tests of a file.
pub fn inputs(p: &Params, count: usize) -> Vec<Inputs> {
    let make = |(entropy, message): ([u8; 48], Vec<u8>)| {
        let mut drbg = Drbg::new(&entropy);
        let mut seeds = |bytes: usize| (0..bytes / p.seed_bytes()).flat_map(|_| drbg.bytes(p.seed_bytes())).collect();
        Inputs { entropy, message, key_seeds: seeds(p.keygen_bytes()), noise_seeds: seeds(p.noise_bytes()) }
    };
    tests(count).into_iter().map(make).collect()
}

/// One test: the keys, and the signature with the message behind it.
pub struct Test {
    pub pk: Vec<u8>,
    pub sk: Vec<u8>,
    pub sm: Vec<u8>,
}

/// How many bits a signature uses, by a count of its fields: as many as the independent writer makes of them, at most all, and behind them
/// zeros alone; else what is wrong.
pub fn bits_used(p: &Params, signature: &[u8], count: fn(u32, &[i8], &[i64]) -> Bits) -> Result<usize, String> {
    let fields = read(p, signature).ok_or("no signature")?;
    let hint: Result<Vec<i8>, _> = fields.hint.iter().map(|&h| i8::try_from(h)).collect();
    let counted = count(p.kappa as u32, &hint.map_err(|_| "a hint beyond 8 bits")?, &fields.response);
    let made = form_bits(&fields).len();
    if counted != (Bits { status: 0, bits: made as u64 }) {
        return Err(format!("{counted:?} for {made} bits"));
    }
    if made > 8 * signature.len() {
        return Err(format!("{made} bits in {} bytes", signature.len()));
    }
    let fill = (made..8 * signature.len()).find(|at| signature[at / 8] >> (at % 8) & 1 == 1);
    fill.map_or(Ok(made), |at| Err(format!("bit {at} is set behind {made} bits")))
}

/// A test made and verified by the unit, in the edition of the parameters, its bits counted; else what it answered. The masking seed leaves
/// no trace in it.
pub fn made(p: &Params, input: &Inputs, mask_seed: &[u8; 32]) -> Result<Test, String> {
    let (set, d) = (p.kappa as u32, p.d as u32);
    let (mut sk, mut sm, mut work) = (vec![0u8; p.sk_bytes()], vec![0u8; p.sig_bytes], vec![0u64; p.work_words()]);
    let status = unit::keygen(p.edition, set, d, &input.key_seeds, mask_seed, &mut sk, &mut work);
    if status != 0 {
        return Err(format!("keygen {status}"));
    }
    let key = Key::Packed(&sk);
    let call = Signing {
        set,
        shares: d,
        attempts: 1,
        key,
        message: &input.message,
        noise: Noise::Seeds(&input.noise_seeds),
        mask_seeds: mask_seed,
    };
    let signed = unit::sign(p.edition, &call, &mut sm, &mut work);
    if (signed.status, signed.attempts) != (0, 1) {
        return Err(format!("sign {} {}", signed.status, signed.attempts));
    }
    let pk = sk[..p.vk_bytes()].to_vec();
    let status = unit::verify(p.edition, set, &pk, &input.message, &sm);
    if status != 0 {
        return Err(format!("verify {status}"));
    }
    bits_used(p, &sm, unit::signature_bits)?;
    sm.extend(&input.message);
    Ok(Test { pk, sk, sm })
}

fn upper(text: &mut String, name: &str, bytes: &[u8]) {
    text.push_str(name);
    text.push_str(" = ");
    bytes.iter().for_each(|b| write!(text, "{b:02X}").unwrap());
    text.push('\n');
}

/// The text of some tests, the first of which has this number.
fn texts(p: &Params, first: usize, inputs: &[Inputs]) -> Result<String, String> {
    let mut text = String::new();
    for (number, input) in (first..).zip(inputs) {
        let test = made(p, input, &[number as u8; 32]).map_err(|answer| format!("test {number}: {answer}"))?;
        writeln!(text, "count = {number}").unwrap();
        upper(&mut text, "seed", &input.entropy);
        writeln!(text, "mlen = {}", input.message.len()).unwrap();
        upper(&mut text, "msg", &input.message);
        upper(&mut text, "pk", &test.pk);
        upper(&mut text, "sk", &test.sk);
        writeln!(text, "smlen = {}", test.sm.len()).unwrap();
        upper(&mut text, "sm", &test.sm);
        text.push('\n');
    }
    Ok(text)
}

/// The text of a response file of so many tests, made on all processors.
pub fn file(p: &Params, count: usize) -> Result<String, String> {
    let inputs = inputs(p, count);
    let part = count.div_ceil(thread::available_parallelism().map_or(1, usize::from));
    let parts: Vec<Result<String, String>> = thread::scope(|scope| {
        let make = |(i, inputs)| scope.spawn(move || texts(p, i * part, inputs));
        let threads: Vec<_> = inputs.chunks(part).enumerate().map(make).collect();
        threads.into_iter().map(|thread| thread.join().unwrap()).collect()
    });
    let tests: Result<String, String> = parts.into_iter().collect();
    Ok(format!("# Raccoon-{}-{}\n\n{}", p.kappa, p.d, tests?))
}

/// Set, share count and SHA-256 of each of the 18 files of 100 tests.
pub fn digests() -> Vec<(usize, usize, &'static str)> {
    let line = |line: &'static str| {
        let mut parts = line.split(' ');
        let (set, d) = parts.next()?.split_once('-')?;
        Some((set.parse().ok()?, d.parse().ok()?, parts.next()?))
    };
    include_str!("../tests/data/response-files.sha256").lines().filter_map(line).collect()
}
