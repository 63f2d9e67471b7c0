//! The proved code: the unit's calls with the types of the independent implementation, and the exports of its parts.

use independent::raccoon::{Decision, Edition, Noise};
use independent::ring::{N, Poly};
use raccoon::call;
pub use raccoon::call::{Bits, Key, ReadSlip, Signed, SigningLengths};
pub use raccoon::call::{lengths, read_slip, refresh_key, sample_challenge, sample_uniform, signature_bits, write_slip};

mod raw {
    extern "C" {
        pub fn bench_permute(n: usize) -> u64;
        pub fn bench_stream(header: *const u8, seed: *const u8, seed_len: usize, out: *mut u8, out_len: usize);
        pub fn bench_shake256(m: *const u8, m_len: usize, out: *mut u8, out_len: usize);
        pub fn bench_ntt(f: *mut u64) -> bool;
        pub fn bench_product(f: *mut u64, g: *const u64) -> bool;
        pub fn bench_sample_q(header: *const u8, seed: *const u8, seed_len: usize, out: *mut u64) -> bool;
        pub fn bench_masks(seed: *const u8, seed_len: usize, n: u32, out: *mut u64) -> bool;
        pub fn bench_check_bounds(
            hint: *const i64,
            hint_len: usize,
            response: *const i64,
            response_len: usize,
            hint_limit: u64,
            binf: u64,
            b22: u64,
        ) -> Decision;
    }

    #[repr(C)]
    pub struct Decision {
        pub passed: bool,
        pub coefficients: usize,
    }
}

/// Lane (0, 0) after `n` permutations of the zero state.
pub fn permutations(n: usize) -> u64 {
    unsafe { raw::bench_permute(n) }
}

/// The stream of a header and a seed.
pub fn stream(header: &[u8; 8], seed: &[u8], out: &mut [u8]) {
    unsafe { raw::bench_stream(header.as_ptr(), seed.as_ptr(), seed.len(), out.as_mut_ptr(), out.len()) }
}

/// SHAKE256 of a message.
pub fn shake256(message: &[u8], out: &mut [u8]) {
    unsafe { raw::bench_shake256(message.as_ptr(), message.len(), out.as_mut_ptr(), out.len()) }
}

/// The transform in place; false, and nothing done, where a word is not below q.
pub fn ntt(f: &mut Poly) -> bool {
    unsafe { raw::bench_ntt(f.as_mut_ptr()) }
}

/// The product of the ring, into `f`; false, and nothing done, where a word is not below q.
pub fn product(f: &mut Poly, g: &Poly) -> bool {
    unsafe { raw::bench_product(f.as_mut_ptr(), g.as_ptr()) }
}

/// The uniform polynomial of a header and a seed.
pub fn sample_q(header: &[u8; 8], seed: &[u8]) -> Option<Poly> {
    let mut poly = [0u64; N];
    let filled = unsafe { raw::bench_sample_q(header.as_ptr(), seed.as_ptr(), seed.len(), poly.as_mut_ptr()) };
    filled.then_some(poly)
}

/// Polynomial number `n`, from 0, of a seed's mask generator; false, and zero, where it or one before it did not fill.
pub fn masks(seed: &[u8], n: u32, poly: &mut Poly) -> bool {
    unsafe { raw::bench_masks(seed.as_ptr(), seed.len(), n, poly.as_mut_ptr()) }
}

/// The check of the bounds: its answer, and how many coefficients it read.
pub fn check_bounds(hint: &[i64], response: &[i64], hint_limit: u64, binf: u64, b22: u64) -> Decision {
    let raw::Decision { passed, coefficients } =
        unsafe { raw::bench_check_bounds(hint.as_ptr(), hint.len(), response.as_ptr(), response.len(), hint_limit, binf, b22) };
    Decision { passed, coefficients }
}

fn of(edition: Edition) -> call::Edition {
    match edition {
        Edition::Printed => call::Edition::Printed,
        Edition::Kat => call::Edition::Kat,
    }
}

/// Key generation: its status.
pub fn keygen(edition: Edition, set: u32, shares: u32, seeds: &[u8], mask_seed: &[u8], key: &mut [u8], work: &mut [u64]) -> u32 {
    call::keygen(of(edition), set, shares, seeds, mask_seed, key, work)
}

/// Expanding a signing key: its status.
pub fn expand_key(edition: Edition, set: u32, shares: u32, key: &[u8], bytes: &mut [u8], words: &mut [u64]) -> u32 {
    call::expand_key(of(edition), set, shares, key, bytes, words)
}

/// Verifying: its status.
pub fn verify(edition: Edition, set: u32, public_key: &[u8], message: &[u8], signature: &[u8]) -> u32 {
    call::verify(of(edition), set, public_key, message, signature)
}

/// What signing is lent to read. Noise and masks are those of all attempts.
#[derive(Clone, Copy)]
pub struct Signing<'a> {
    pub set: u32,
    pub shares: u32,
    pub attempts: u32,
    pub key: Key<'a>,
    pub message: &'a [u8],
    pub noise: Noise<'a>,
    pub mask_seeds: &'a [u8],
}

/// Signing: its status and attempts.
pub fn sign(edition: Edition, input: &Signing, signature: &mut [u8], work: &mut [u64]) -> Signed {
    let &Signing { set, shares, attempts, key, message, noise, mask_seeds } = input;
    let noise = match noise {
        Noise::Seeds(seeds) => call::Noise::Seeds(seeds),
        Noise::Words(words) => call::Noise::Words(words),
    };
    call::sign(of(edition), &call::Signing { set, shares, attempts, key, message, noise, mask_seeds }, signature, work)
}
