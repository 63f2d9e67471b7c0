//! Numbers packed in bytes, draws in a stream, the digest in an expanded key, and polynomials laid out in shares.

use crate::random::Random;
use independent::raccoon::{Params, with_digest};
use independent::ring::{N, Q};

/// The number of `width` bits, at most 57, at a bit of some bytes, the lowest bit first.
pub fn bits(bytes: &[u8], from: usize, width: usize) -> u64 {
    let part = bytes[from / 8..(from + width).div_ceil(8)].iter().rev().fold(0, |sum, &byte| sum << 8 | u64::from(byte));
    part >> (from % 8) & ((1 << width) - 1)
}

/// Puts a number of `width` bits at a bit of some bytes.
pub fn put_bits(bytes: &mut [u8], from: usize, width: usize, value: u64) {
    for b in 0..width {
        let at = from + b;
        bytes[at / 8] = bytes[at / 8] & !(1 << (at % 8)) | ((value >> b & 1) as u8) << (at % 8);
    }
}

/// A stream of draws: the low seven bytes of each value, little-endian.
pub fn draws(values: &[u64]) -> Vec<u8> {
    values.iter().flat_map(|value| value.to_le_bytes()[..7].to_vec()).collect()
}

/// The polynomials of masks that a zero encoding takes: half as many as shares, on each of log2 d levels.
pub fn encoding_masks(d: usize) -> usize {
    d / 2 * d.ilog2() as usize
}

/// The bit of a signing key at which its full share begins.
pub fn full_share(p: &Params) -> usize {
    8 * (p.vk_bytes() + (p.d - 1) * p.seed_bytes())
}

/// Is the digest in the bytes of an expanded key the hash of the public key before it?
pub fn digest_is_true(p: &Params, bytes: &[u8]) -> bool {
    bytes == with_digest(p, &bytes[..p.vk_bytes()])
}

/// The words of an expanded key.
pub fn share_words(p: &Params) -> usize {
    p.l * p.d * N
}

/// Polynomials laid out for d shares: shares 1 to d - 1 are the words in order, share 0 makes up the total.
pub fn laid_out(totals: &[u64], d: usize, words: &[u64]) -> Vec<u64> {
    let mut out = Vec::with_capacity(totals.len() * d);
    for (i, total) in totals.chunks_exact(N).enumerate() {
        let others = &words[i * (d - 1) * N..(i + 1) * (d - 1) * N];
        out.extend((0..N).map(|x| (total[x] + (0..d - 1).map(|j| Q - others[j * N + x]).sum::<u64>()) % Q));
        out.extend(others);
    }
    out
}

/// The sums of the shares of polynomials.
pub fn sums(words: &[u64], d: usize) -> Vec<u64> {
    words.chunks_exact(d * N).flat_map(|s| (0..N).map(move |x| (0..d).map(|j| s[j * N + x]).sum::<u64>() % Q)).collect()
}

/// So many random words below q.
pub fn words_below_q(n: usize, random: &mut Random) -> Vec<u64> {
    (0..n).map(|_| random.word() % Q).collect()
}

/// Noise totals of one attempt that pass with a key as it is generated: each below 2^41 in size.
pub fn small_totals(p: &Params, random: &mut Random) -> Vec<u64> {
    (0..(p.l + p.k) * N).map(|_| (random.word() % (1 << 42) + Q - (1 << 41)) % Q).collect()
}
