//! Signing, Algorithm 2, in its four forms.

use crate::call::{self, Edition, Key, Noise, Signing};
use crate::secret::Secret;
use crate::{ExpandedKey, ExplicitNoise, Lengths, Params, Refusal, Signature, SigningKey, SigningSeeds};
use std::fmt;

/// A signature, and the number of the attempt that gave it, from 1.
#[derive(Clone, PartialEq, Eq, Debug)]
pub struct Signed {
    pub signature: Signature,
    pub attempt: u32,
}

/// Why there is no signature. The attempts are, with 12, all that were allowed, with 11 and 20 the one that met it, else 0.
#[derive(Clone, Copy, PartialEq, Eq, Debug)]
pub struct NotSigned {
    pub refusal: Refusal,
    pub attempts: u32,
}

impl fmt::Display for NotSigned {
    fn fmt(&self, f: &mut fmt::Formatter) -> fmt::Result {
        match self.attempts {
            0 => self.refusal.fmt(f),
            1 => write!(f, "{} (after 1 attempt)", self.refusal),
            n => write!(f, "{} (after {n} attempts)", self.refusal),
        }
    }
}

impl std::error::Error for NotSigned {}

fn signed(params: Params, attempts: u32, key: Key, message: &[u8], noise: Noise, mask_seeds: &[u8]) -> Result<Signed, NotSigned> {
    let (mut bytes, mut work) = (vec![0; params.set.signature_bytes()], Secret::zeros(Lengths::of_one(params).work_words));
    let (set, shares) = params.numbers();
    let input = Signing { set, shares, attempts, key, message, noise, mask_seeds };
    let answer = call::sign(Edition::Printed, &input, &mut bytes, &mut work);
    Refusal::from_status(answer.status).map_err(|refusal| NotSigned { refusal, attempts: answer.attempts })?;
    Ok(Signed { signature: Signature { set: params.set, bytes: bytes.into() }, attempt: answer.attempts })
}

impl SigningKey {
    /// Refused with 9 for a message that is too long, with 12 where no attempt passed (bring new seeds); seeds made for other parameters
    /// are refused with 7. With 10, 11 and 20 no known key, message and seeds are refused.
    pub fn sign(&self, message: &[u8], seeds: SigningSeeds) -> Result<Signed, NotSigned> {
        let key = Key::Packed(self.as_bytes());
        signed(self.params(), seeds.attempts, key, message, Noise::Seeds(&seeds.noise), &seeds.masks)
    }

    /// With explicit noise, for comparisons.
    pub fn sign_explicit(&self, message: &[u8], noise: ExplicitNoise) -> Result<Signed, NotSigned> {
        let key = Key::Packed(self.as_bytes());
        signed(self.params(), noise.attempts, key, message, Noise::Words(&noise.noise), &noise.masks)
    }
}

impl ExpandedKey {
    /// As [`SigningKey::sign`], without expanding the key each time, and with the digest that it holds.
    pub fn sign(&self, message: &[u8], seeds: SigningSeeds) -> Result<Signed, NotSigned> {
        let key = Key::Expanded(self.bytes(), self.words());
        signed(self.params(), seeds.attempts, key, message, Noise::Seeds(&seeds.noise), &seeds.masks)
    }

    /// With explicit noise, for comparisons.
    pub fn sign_explicit(&self, message: &[u8], noise: ExplicitNoise) -> Result<Signed, NotSigned> {
        let key = Key::Expanded(self.bytes(), self.words());
        signed(self.params(), noise.attempts, key, message, Noise::Words(&noise.noise), &noise.masks)
    }
}
