//! What calls are lent besides keys and messages. No type here can be copied, and a call takes it by value: nothing is used twice.

use crate::secret::Secret;
use crate::{Lengths, MASK_SEED_BYTES, MAX_ATTEMPTS, Params, Q, Refusal};
use std::fs::File;
use std::io::{self, Read};

/// Fills bytes from the operating system's generator.
pub fn os_random(bytes: &mut [u8]) -> io::Result<()> {
    File::open("/dev/urandom")?.read_exact(bytes)
}

fn filled(n: usize, fill: &mut impl FnMut(&mut [u8]) -> io::Result<()>) -> io::Result<Secret<u8>> {
    let mut bytes = Secret::zeros(n);
    fill(&mut bytes)?;
    Ok(bytes)
}

/// Seeds of key generation.
pub struct KeygenSeeds {
    pub(crate) params: Params,
    pub(crate) seeds: Secret<u8>,
    pub(crate) mask_seed: Secret<u8>,
}

impl KeygenSeeds {
    /// From a source of random bytes, such as [`os_random`].
    pub fn draw(params: Params, mut source: impl FnMut(&mut [u8]) -> io::Result<()>) -> io::Result<KeygenSeeds> {
        let seeds = filled(params.keygen_seed_bytes(), &mut source)?;
        Ok(KeygenSeeds { params, seeds, mask_seed: filled(MASK_SEED_BYTES, &mut source)? })
    }

    /// Given seeds, joined as in paper 01: matrix seed, noise seeds, share seeds. Refused with 7 where the length is wrong.
    pub fn given(params: Params, seeds: &[u8], mask_seed: &[u8; MASK_SEED_BYTES]) -> Result<KeygenSeeds, Refusal> {
        if seeds.len() != params.keygen_seed_bytes() {
            return Err(Refusal::BadSeeds);
        }
        Ok(KeygenSeeds { params, seeds: seeds.into(), mask_seed: mask_seed[..].into() })
    }
}

/// Noise seeds and mask seeds of one call to signing, for all its attempts.
pub struct SigningSeeds {
    pub(crate) attempts: u32,
    pub(crate) noise: Secret<u8>,
    pub(crate) masks: Secret<u8>,
}

impl SigningSeeds {
    /// Seeds for a key of these parameters; 16 attempts unless [`SigningSeedsBuilder::attempts`] says otherwise.
    #[allow(clippy::new_ret_no_self)]
    pub fn new(params: Params) -> SigningSeedsBuilder {
        let lengths = Lengths::of(params, MAX_ATTEMPTS).expect("so many attempts are allowed");
        SigningSeedsBuilder { params, attempts: MAX_ATTEMPTS, lengths }
    }
}

/// Makes [`SigningSeeds`], and [`ExplicitNoise`].
///
/// ```
/// use raccoon::{os_random, Params, Refusal, Set, Shares, SigningSeeds};
///
/// # fn main() -> Result<(), Box<dyn std::error::Error>> {
/// let params = Params::new(Set::Raccoon192, Shares::Two);
/// let seeds = SigningSeeds::new(params).attempts(4)?.draw(os_random)?;
/// # drop(seeds);
/// assert_eq!(SigningSeeds::new(params).attempts(17).unwrap_err(), Refusal::BadAttempts);
/// # Ok(())
/// # }
/// ```
#[derive(Clone, Copy, Debug)]
pub struct SigningSeedsBuilder {
    params: Params,
    attempts: u32,
    lengths: Lengths,
}

impl SigningSeedsBuilder {
    /// How many attempts are allowed, 1 to 16; else refused with 6.
    pub fn attempts(self, attempts: u32) -> Result<SigningSeedsBuilder, Refusal> {
        Ok(SigningSeedsBuilder { attempts, lengths: Lengths::of(self.params, attempts)?, ..self })
    }

    /// From a source of random bytes, such as [`os_random`].
    pub fn draw(self, mut source: impl FnMut(&mut [u8]) -> io::Result<()>) -> io::Result<SigningSeeds> {
        let noise = filled(self.lengths.noise_seed_bytes, &mut source)?;
        Ok(SigningSeeds { attempts: self.attempts, noise, masks: filled(self.lengths.mask_seed_bytes, &mut source)? })
    }

    /// Given seeds, attempt behind attempt. Refused with 7 where a length is wrong.
    pub fn given(self, noise: &[u8], masks: &[u8]) -> Result<SigningSeeds, Refusal> {
        if noise.len() != self.lengths.noise_seed_bytes || masks.len() != self.lengths.mask_seed_bytes {
            return Err(Refusal::BadSeeds);
        }
        Ok(SigningSeeds { attempts: self.attempts, noise: noise.into(), masks: masks.into() })
    }

    /// Given noise words in place of noise seeds. Refused with 7 where a length is wrong or a word is not below q.
    pub fn explicit(self, noise: &[u64], masks: &[u8]) -> Result<ExplicitNoise, Refusal> {
        let noise_words = self.attempts as usize * self.params.noise_words();
        let lengths = noise.len() == noise_words && masks.len() == self.lengths.mask_seed_bytes;
        if !lengths || noise.iter().any(|&word| word >= Q) {
            return Err(Refusal::BadSeeds);
        }
        Ok(ExplicitNoise { attempts: self.attempts, noise: noise.into(), masks: masks.into() })
    }
}

/// Noise itself (paper 01: bench form), for comparing units of different share counts. The noise decides how safe the key is: to sign in
/// earnest, use [`SigningSeeds`].
pub struct ExplicitNoise {
    pub(crate) attempts: u32,
    pub(crate) noise: Secret<u64>,
    pub(crate) masks: Secret<u8>,
}
