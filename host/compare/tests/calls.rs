//! The calls of paper 01 against known answers: name, status, and the SHA-256 of the result.

use compare::independent::ring::Q;
use compare::known::{digest, known, word_bytes, xof};
use compare::layout::draws;
use compare::random::Random;
use compare::{expect, unit};

/// Runs a sampler on a result of n words with guards around it, and gives the answer as the file has it.
fn uniform(sampler: fn(&[u8], &mut [u64]) -> u32, bytes: &[u8], n: usize) -> String {
    const GUARD: u64 = 0x5555_aaaa_5555_aaaa;
    let mut words = vec![GUARD; n + 8];
    let status = sampler(bytes, &mut words[4..n + 4]);
    assert!(words[..4].iter().chain(&words[n + 4..]).all(|&w| w == GUARD));
    if status == 0 {
        return format!("0 {}", digest(&word_bytes(&words[4..n + 4])));
    }
    assert!(words.iter().all(|&w| w == GUARD), "a refusal changed the result");
    format!("{status} -")
}

#[test]
fn sha256_of_known_messages() {
    assert_eq!(digest(b"abc"), "ba7816bf8f01cfea414140de5dae2223b00361a396177a9cb410ff61f20015ad");
    assert_eq!(digest(&[]), "e3b0c44298fc1c149afbf4c8996fb92427ae41e4649b934ca495991b7852b855");
    assert_eq!(digest(&[b'a'; 1_000_000]), "cdc76e5c9914fb9281a1c7e284d73e67f1809a48a497200e046d39ccc7112cd0");
}

#[test]
fn uniform_sampler() {
    let zeros = |n: usize| vec![0u8; n];
    let after = |first: u64| [draws(&[first]), zeros(511 * 7)].concat();
    let dropped = |n: usize| [draws(&vec![Q; n]), zeros((777 - n) * 7)].concat();
    let high = [draws(&[(Q - 1) | 0x7f << 49]), zeros(511 * 7)].concat();
    let cases: [(&str, Vec<u8>, usize); 10] = [
        ("uniform no bytes", vec![], 512),
        ("uniform zeros, 3583", zeros(3583), 512),
        ("uniform zeros, 3584", zeros(3584), 512),
        ("uniform 265 dropped", dropped(265), 512),
        ("uniform 266 dropped", dropped(266), 512),
        ("uniform draw q-1 then zeros", after(Q - 1), 512),
        ("uniform draw q then zeros", after(Q), 512),
        ("uniform draw q-1, high bits set", high, 512),
        ("uniform shake", xof("uniform", 5439), 512),
        ("uniform result 511", xof("uniform", 5439), 511),
    ];
    for (name, bytes, n) in cases {
        assert_eq!(uniform(unit::sample_uniform, &bytes, n), known(name), "{name}");
    }
}

#[test]
fn uniform_sampler_on_any_bytes_and_lengths() {
    let mut random = Random(20);
    for _ in 0..3000 {
        let length = match random.below(3) {
            0 => random.below(6000),
            1 => 3584 + random.below(200),
            _ => 5439 + random.below(40),
        };
        let mut bytes = random.bytes(length);
        // more draws of q and above than chance would give
        for _ in 0..random.below(300) {
            if bytes.len() >= 7 {
                let place = random.below(bytes.len() / 7) * 7;
                bytes[place..place + 7].fill(0xff);
            }
        }
        let n = [0, 511, 512, 512, 512, 512, 513, 1024][random.below(8)];
        assert_eq!(uniform(unit::sample_uniform, &bytes, n), uniform(expect::sample_uniform, &bytes, n));
    }
}

/// Runs a challenge sampler on n coefficients with guards around them, and gives the answer as the file has it.
fn challenged(sampler: fn(u32, &[u8], &mut [i8]) -> u32, set: u32, bytes: &[u8], n: usize) -> String {
    const GUARD: i8 = 0x35;
    let mut coefficients = vec![GUARD; n + 64];
    let status = sampler(set, bytes, &mut coefficients[32..n + 32]);
    assert!(coefficients[..32].iter().chain(&coefficients[n + 32..]).all(|&c| c == GUARD));
    if status == 0 {
        let result: Vec<u8> = coefficients[32..n + 32].iter().map(|&c| c as u8).collect();
        return format!("0 {}", digest(&result));
    }
    assert!(coefficients.iter().all(|&c| c == GUARD), "a refusal changed the result");
    format!("{status} -")
}

/// Draws on the given places, each with its sign bit and the bits above the place.
fn challenge_draws(places: impl IntoIterator<Item = u16>, sign: u16, high: u16) -> Vec<u8> {
    places.into_iter().flat_map(|p| (high << 10 | p << 1 | sign).to_le_bytes()).collect()
}

#[test]
fn challenge_sampler() {
    let places = || challenge_draws(0..19, 0, 0);
    // place 0 again and again, and the other 18 places at the end
    let full_at = |n: usize| [challenge_draws(vec![0; n - 18], 0, 0), challenge_draws(1..19, 0, 0)].concat();
    let cases: [(&str, u32, Vec<u8>, usize); 10] = [
        ("128 challenge no bytes", 128, vec![], 512),
        ("128 challenge shake", 128, xof("challenge", 2176), 512),
        ("128 challenge places from 0", 128, places(), 512),
        ("128 challenge places from 0, one byte short", 128, places()[..37].to_vec(), 512),
        ("128 challenge signs set", 128, challenge_draws(0..19, 1, 0), 512),
        ("128 challenge high bits set", 128, challenge_draws(0..19, 0, 0x3f), 512),
        ("128 challenge full at draw 1088", 128, full_at(1088), 512),
        ("128 challenge full at draw 1089", 128, full_at(1089), 512),
        ("128 challenge set 0", 0, xof("challenge", 2176), 512),
        ("128 challenge result 513", 128, xof("challenge", 2176), 513),
    ];
    for (name, set, bytes, n) in cases {
        assert_eq!(challenged(unit::sample_challenge, set, &bytes, n), known(name), "{name}");
    }
}

#[test]
fn challenge_sampler_on_any_bytes_and_lengths() {
    let mut random = Random(21);
    for _ in 0..3000 {
        let length = if random.below(2) == 0 { random.below(200) } else { 2100 + random.below(200) };
        let mut bytes = random.bytes(length);
        // few places, so that draws are dropped
        if random.below(2) == 0 {
            let mask = [0x1f, 0x3f, 0x7f][random.below(3)];
            bytes.iter_mut().enumerate().for_each(|(i, b)| *b &= if i % 2 == 0 { mask } else { 0xfc });
        }
        let set = [128, 192, 256, 128, 192, 256, 0, 129, u32::MAX][random.below(9)];
        let n = [0, 511, 512, 512, 512, 512, 513, 2048][random.below(8)];
        assert_eq!(challenged(unit::sample_challenge, set, &bytes, n), challenged(expect::sample_challenge, set, &bytes, n));
    }
}
