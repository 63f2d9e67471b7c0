//! Known answers: the labels and digests of the data files, and what they say of a call.
//!
//! `calls-128-printed.txt` is as it was given, but for the rows `refresh` of two shares and more, and for `slip`. Rows `refresh` as given are
//! of masking words modulo q; they stand as `refresh, words modulo q`, which the independent implementation gives with such words lent. What
//! stands as `refresh` is of the even words of paper 02, request #105: made by the independent implementation and, alike, by a script on another
//! SHAKE256. Keys and signatures do not depend on masking words, so that their rows stay. The row `slip` is of request #101: made by the
//! independent implementation; a script on another SHAKE256 found its fields and its signature good.

use independent::keccak::shake256;
use independent::ring::Q;
use independent::sha256::sha256;
use std::collections::HashMap;

pub fn hex(bytes: &[u8]) -> String {
    bytes.iter().map(|b| format!("{b:02x}")).collect()
}

/// The first n bytes of SHAKE256 over a label.
pub fn xof(label: &str, n: usize) -> Vec<u8> {
    let mut out = vec![0u8; n];
    shake256(label.as_bytes(), &mut out);
    out
}

/// The SHA-256 of some bytes, in hex.
pub fn digest(bytes: &[u8]) -> String {
    hex(&sha256(bytes))
}

/// The bytes of words, little-endian.
pub fn word_bytes(words: &[u64]) -> Vec<u8> {
    words.iter().flat_map(|w| w.to_le_bytes()).collect()
}

/// Words of the stream of a seed, eight bytes each, modulo q: the masking words of paper 01 before paper 02, request #105.
pub fn words_modulo_q(seed: &[u8], n: usize) -> Vec<u64> {
    let mut stream = vec![0u8; 8 * n];
    shake256(seed, &mut stream);
    stream.chunks_exact(8).map(|word| u64::from_le_bytes(word.try_into().unwrap()) % Q).collect()
}

/// What the file says of a call: its status and the SHA-256 of its result.
pub fn known(name: &str) -> String {
    let file = include_str!("../tests/data/calls-128-printed.txt");
    let line = file.lines().find_map(|line| line.strip_prefix(name)?.strip_prefix(": "));
    line.unwrap_or_else(|| panic!("no known answer for {name}")).to_string()
}

/// Set, share count and number of the test, with what the file says of it.
pub fn response_tests(file: &str) -> Vec<((usize, usize, usize), HashMap<String, String>)> {
    let mut known: Vec<((usize, usize, usize), HashMap<String, String>)> = vec![];
    let mut name = (0, 0);
    for line in file.lines() {
        if let Some(title) = line.strip_prefix("# Raccoon-") {
            let (set, d) = title.split_once('-').unwrap_or((title, "1"));
            name = (set.parse().unwrap(), d.parse().unwrap());
        } else if let Some((key, value)) = line.split_once(" = ") {
            if key == "count" {
                known.push(((name.0, name.1, value.parse().unwrap()), HashMap::new()));
            } else {
                known.last_mut().unwrap().1.insert(key.to_string(), value.to_string());
            }
        }
    }
    known
}
