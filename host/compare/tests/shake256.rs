//! SHAKE256 of the proved code against the independent implementation, and both against FIPS 202's examples.

use compare::independent::keccak;
use compare::random::Random;
use compare::unit;
use std::io::Write;
use std::process::{Command, Stdio};

fn hex(bytes: &[u8]) -> String {
    bytes.iter().map(|b| format!("{b:02x}")).collect()
}

/// A buffer with guard bytes around it, which must stay.
fn guarded(n: usize, job: impl FnOnce(&mut [u8])) -> Vec<u8> {
    let mut buffer = vec![0xc5u8; n + 64];
    job(&mut buffer[32..32 + n]);
    assert!(buffer[..32].iter().chain(&buffer[32 + n..]).all(|&b| b == 0xc5), "a guard byte was written");
    buffer[32..32 + n].to_vec()
}

#[test]
fn examples_of_fips_202() {
    let none = "46b9dd2b0ba88d13233b3feb743eeb243fcd52ea62b81b82b50c27646ed5762f";
    let long = "cd8a920ed141aa0407a22d59288652e9d9f1a7ee0c1e7c1ca699424da84a904d";
    for (message, expected) in [(vec![], none), (vec![0xa3u8; 200], long)] {
        assert_eq!(hex(&guarded(32, |out| unit::shake256(&message, out))), expected);
        let mut other = [0u8; 32];
        keccak::shake256(&message, &mut other);
        assert_eq!(hex(&other), expected);
    }
}

#[test]
fn every_length_to_three_blocks() {
    let mut random = Random(1);
    for n in 0..=3 * 136 + 9 {
        let message = random.bytes(n);
        let out = random.below(5 * 136);
        let mut other = vec![0u8; out];
        keccak::shake256(&message, &mut other);
        assert_eq!(guarded(out, |o| unit::shake256(&message, o)), other, "{n} bytes in, {out} out");
    }
}

#[test]
fn header_and_seed_of_every_length() {
    let mut random = Random(2);
    for n in 0..=300 {
        let seed = random.bytes(n);
        let header: [u8; 8] = random.bytes(8).try_into().unwrap();
        let out = random.below(30 * 136);
        let mut other = vec![0u8; out];
        keccak::shake256(&[&header[..], &seed].concat(), &mut other);
        assert_eq!(guarded(out, |o| unit::stream(&header, &seed, o)), other, "{n} bytes of seed, {out} out");
    }
}

#[test]
fn long_messages() {
    let mut random = Random(3);
    for n in [4096, 65_536, 1_000_003] {
        let message = random.bytes(n);
        let mut other = [0u8; 64];
        keccak::shake256(&message, &mut other);
        assert_eq!(guarded(64, |o| unit::shake256(&message, o)), other);
    }
}

/// The program reads standard input to its end, in whatever pieces it comes.
#[test]
fn program_hashes_standard_input() {
    let program = concat!(env!("CARGO_MANIFEST_DIR"), "/../../crates/shakesum/out/shakesum");
    let mut random = Random(4);
    for n in [0, 1, 135, 136, 4079, 4080, 4081, 8160, 100_000] {
        let message = random.bytes(n);
        let mut child = Command::new(program)
            .stdin(Stdio::piped())
            .stdout(Stdio::piped())
            .spawn()
            .expect("crates/shakesum/out/shakesum is built by rt ci");
        let mut input = child.stdin.take().unwrap();
        for piece in message.chunks(1 + n / 3) {
            input.write_all(piece).unwrap();
            input.flush().unwrap();
        }
        drop(input);
        let output = child.wait_with_output().unwrap();
        let mut digest = [0u8; 32];
        keccak::shake256(&message, &mut digest);
        assert_eq!(String::from_utf8(output.stdout).unwrap(), hex(&digest) + "\n", "{n} bytes");
    }
}
