//! The checking program `crates/checker/out/checker`, which `rt ci` writes: what it prints on its standard input.

use compare::independent::masks::Masks;
use compare::independent::raccoon::{Edition, Noise, Params, expand, keygen, sign, verify, with_digest};
use compare::known::xof;
use std::io::Write;
use std::path::Path;
use std::process::{Child, ChildStdin, Command, Stdio};

const KEY: usize = 2256;
const SIGNATURE: usize = 11524;

fn started() -> (Child, ChildStdin) {
    let program = Path::new(env!("CARGO_MANIFEST_DIR")).join("../../crates/checker/out/checker");
    let mut child = Command::new(program).stdin(Stdio::piped()).stdout(Stdio::piped()).spawn().unwrap();
    let input = child.stdin.take().unwrap();
    (child, input)
}

fn answer(child: Child) -> String {
    String::from_utf8(child.wait_with_output().unwrap().stdout).unwrap()
}

/// A write fails where the program has its answer before the end of the input.
fn printed(bytes: &[u8]) -> String {
    let (child, mut input) = started();
    let _ = input.write_all(bytes);
    drop(input);
    answer(child)
}

/// A key, a signature by one share, and the message.
fn signed(message: &[u8]) -> [Vec<u8>; 3] {
    let p = Params::new(128, 1, Edition::Printed).unwrap();
    let key = keygen(&p, &xof("tape 128-1", p.keygen_bytes()), Masks::Seed(&xof("mask", 32))).unwrap();
    let vk = &key[..KEY];
    let noise = xof("noise 128-1", 16 * p.noise_bytes());
    let mask = xof("mask", 32);
    let attempts: Vec<_> = noise.chunks_exact(p.noise_bytes()).map(|n| (Noise::Seeds(n), Masks::Seed(&mask))).collect();
    let signature = sign(&p, &with_digest(&p, vk), &expand(&p, &key).unwrap(), message, &attempts).2.unwrap();
    assert_eq!(signature.len(), SIGNATURE);
    [vk.to_vec(), signature, message.to_vec()]
}

#[test]
fn lengths() {
    for (length, number) in [(0, 3), (1, 3), (KEY - 1, 3), (KEY, 13), (KEY + 1, 13), (KEY + SIGNATURE - 1, 13)] {
        assert_eq!(printed(&vec![0; length]), format!("{number}\n"), "{length} zeros");
    }
    for more in [4097, 4098, 70000] {
        assert_eq!(printed(&vec![0; KEY + SIGNATURE + more]), "9\n", "a message of {more}");
    }
}

/// An input without an end is not read without an end.
#[test]
fn endless_input() {
    let (child, mut input) = started();
    while input.write_all(&[0; 4096]).is_ok() {}
    assert_eq!(answer(child), "9\n");
}

#[test]
fn input_in_pieces() {
    let bytes = signed(&xof("message", 100)).concat();
    for length in [1, 1000, 4097] {
        let (child, mut input) = started();
        for piece in bytes.chunks(length).take(30) {
            input.write_all(piece).unwrap();
            std::thread::sleep(std::time::Duration::from_millis(1));
        }
        input.write_all(&bytes[bytes.len().min(30 * length)..]).unwrap();
        drop(input);
        assert_eq!(answer(child), "0\n", "pieces of {length}");
    }
}

/// Signatures of messages of several lengths, and what an altered byte of each part gives.
#[test]
fn verdicts() {
    for length in [0, 1, 100, 4096] {
        let parts = signed(&xof("message", length));
        assert_eq!(printed(&parts.concat()), "0\n");
        for (part, place) in [(0, 0), (0, KEY - 1), (1, 0), (1, 5000), (1, SIGNATURE - 1), (2, length / 2)] {
            let mut altered = parts.clone();
            let Some(byte) = altered[part].get_mut(place) else { continue };
            *byte ^= 0x55;
            let number = verify(128, Edition::Printed, &altered[0], &altered[2], &altered[1]);
            assert_ne!(number, 0);
            assert_eq!(printed(&altered.concat()), format!("{number}\n"), "part {part}, byte {place}");
        }
    }
}
