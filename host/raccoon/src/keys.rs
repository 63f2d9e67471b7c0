//! Keys and signatures in the byte forms of paper 000, section 2.5. Whether contents are in order, the proved unit says.

use crate::call::{self, Edition};
use crate::secret::Secret;
use crate::{KeygenSeeds, Lengths, MASK_SEED_BYTES, Params, Refusal, Set, Shares};
use std::fmt;

/// A public key: its length is that of its set, its coefficients are below 125.
#[derive(Clone, PartialEq, Eq, Debug)]
pub struct PublicKey {
    set: Set,
    bytes: Box<[u8]>,
}

impl PublicKey {
    /// Refused with 3 for a wrong length, with 4 for a coefficient of 125 or more.
    ///
    /// ```
    /// use raccoon::{PublicKey, Refusal, Set};
    ///
    /// assert!(PublicKey::from_bytes(Set::Raccoon128, &[0; 2256]).is_ok());
    /// assert_eq!(PublicKey::from_bytes(Set::Raccoon128, &[0; 2255]), Err(Refusal::BadKeyLength));
    /// assert_eq!(PublicKey::from_bytes(Set::Raccoon128, &[255; 2256]), Err(Refusal::BadPublicKey));
    /// ```
    pub fn from_bytes(set: Set, bytes: &[u8]) -> Result<PublicKey, Refusal> {
        // the verifier asks 3 and 4 first; without a signature it then stops at 13
        match Refusal::from_status(call::verify(Edition::Printed, set.number(), bytes, &[], &[])) {
            Err(Refusal::BadSignatureLength) => Ok(PublicKey { set, bytes: bytes.into() }),
            Err(refusal) => Err(refusal),
            Ok(()) => unreachable!("no bytes are a signature"),
        }
    }

    pub fn set(&self) -> Set {
        self.set
    }

    pub fn as_bytes(&self) -> &[u8] {
        &self.bytes
    }

    /// Algorithm 3. Refused with 9, 14, 15, 10, 11 or 16, or with 13 for a signature of another set.
    pub fn verify(&self, message: &[u8], signature: &Signature) -> Result<(), Refusal> {
        Refusal::from_status(call::verify(Edition::Printed, self.set.number(), &self.bytes, message, &signature.bytes))
    }
}

/// A signature: its length is that of its set. Whether it is good, [`PublicKey::verify`] says.
#[derive(Clone, PartialEq, Eq, Debug)]
pub struct Signature {
    pub(crate) set: Set,
    pub(crate) bytes: Box<[u8]>,
}

impl Signature {
    /// Refused with 13 for a wrong length.
    pub fn from_bytes(set: Set, bytes: &[u8]) -> Result<Signature, Refusal> {
        if bytes.len() != set.signature_bytes() {
            return Err(Refusal::BadSignatureLength);
        }
        Ok(Signature { set, bytes: bytes.into() })
    }

    pub fn set(&self) -> Set {
        self.set
    }

    pub fn as_bytes(&self) -> &[u8] {
        &self.bytes
    }
}

/// A signing key as it is stored: public key, share seeds, one share in full.
#[derive(Clone, PartialEq, Eq)]
pub struct SigningKey {
    params: Params,
    bytes: Secret<u8>,
}

impl SigningKey {
    /// Algorithm 1. Refused with 10 or 20 (no known seeds are).
    pub fn generate(seeds: KeygenSeeds) -> Result<SigningKey, Refusal> {
        let params = seeds.params;
        let work_words = Lengths::of_one(params).work_words;
        let (mut bytes, mut work) = (Secret::zeros(params.signing_key_bytes()), Secret::zeros(work_words));
        let (set, shares) = params.numbers();
        Refusal::from_status(call::keygen(Edition::Printed, set, shares, &seeds.seeds, &seeds.mask_seed, &mut bytes, &mut work))?;
        Ok(SigningKey { params, bytes })
    }

    /// Refused with 3 for a wrong length, with 4 or 5 for what it holds.
    pub fn from_bytes(params: Params, bytes: &[u8]) -> Result<SigningKey, Refusal> {
        let (set, shares) = params.numbers();
        // expanding asks 3, 4 and 5 first; without a result buffer it then stops at 8
        match Refusal::from_status(call::expand_key(Edition::Printed, set, shares, bytes, &mut [], &mut [])) {
            Err(Refusal::BadBuffer) => Ok(SigningKey { params, bytes: bytes.into() }),
            Err(refusal) => Err(refusal),
            Ok(()) => unreachable!("no buffer holds an expanded key"),
        }
    }

    pub fn params(&self) -> Params {
        self.params
    }

    /// The secret bytes: whoever copies them also wipes the copy.
    pub fn as_bytes(&self) -> &[u8] {
        &self.bytes
    }

    /// The front of the key.
    pub fn public_key(&self) -> PublicKey {
        let set = self.params.set;
        PublicKey { set, bytes: self.bytes[..set.public_key_bytes()].into() }
    }

    /// The digest of the public key, and all shares in full (paper 01: opening). Refused with 10 (no known key is).
    pub fn expand(&self) -> Result<ExpandedKey, Refusal> {
        let params = self.params;
        let (mut bytes, mut words) = (vec![0; params.set.expanded_bytes()], Secret::zeros(params.share_words()));
        let (set, shares) = params.numbers();
        Refusal::from_status(call::expand_key(Edition::Printed, set, shares, &self.bytes, &mut bytes, &mut words))?;
        Ok(ExpandedKey { params, bytes: bytes.into(), words })
    }
}

impl fmt::Debug for SigningKey {
    fn fmt(&self, f: &mut fmt::Formatter) -> fmt::Result {
        write!(f, "SigningKey({}, ..)", self.params)
    }
}

/// An expanded key (paper 01: opened key): the public key, its digest, and all shares of the l polynomials as words below q.
///
/// Signing takes the digest as it is, without hashing the public key again. [`SigningKey::expand`] makes it; from parts or from
/// bytes it may be anything, and no check asks. A key with a false one signs, but what it signs is refused with 16 under its
/// public key, and [`ExpandedKey::refresh`] carries the digest on. [`ExpandedKey::digest_is_true`] tells.
///
/// ```
/// use raccoon::*;
///
/// # fn main() -> Result<(), Box<dyn std::error::Error>> {
/// let params = Params::new(Set::Raccoon128, Shares::One);
/// let key = SigningKey::generate(KeygenSeeds::draw(params, os_random)?)?.expand()?;
/// assert!(key.digest_is_true());
///
/// let mut bytes = key.bytes().to_vec();
/// bytes[params.set.public_key_bytes()] ^= 1;
/// let altered = ExpandedKey::from_parts(params, &bytes, key.words())?;
/// assert!(!altered.digest_is_true() && altered.public_key() == key.public_key());
/// let signed = altered.sign(b"release tram 17", SigningSeeds::new(params).draw(os_random)?)?;
/// let verdict = altered.public_key().verify(b"release tram 17", &signed.signature);
/// assert_eq!(verdict, Err(Refusal::BadSignatureHash));
/// # Ok(())
/// # }
/// ```
#[derive(Clone, PartialEq, Eq)]
pub struct ExpandedKey {
    params: Params,
    bytes: Box<[u8]>,
    words: Secret<u64>,
}

impl ExpandedKey {
    /// From public key and digest, joined, and the words. Refused with 3 for wrong lengths, with 4 or 5 for what public key and
    /// words hold.
    pub fn from_parts(params: Params, bytes: &[u8], words: &[u64]) -> Result<ExpandedKey, Refusal> {
        let (set, shares) = params.numbers();
        // refreshing asks 3, 4 and 5 first; without a mask seed it then stops at 7
        match Refusal::from_status(call::refresh_key(set, shares, (bytes, words), &[], &mut [], &mut [])) {
            Err(Refusal::BadSeeds) => Ok(ExpandedKey { params, bytes: bytes.into(), words: words.into() }),
            Err(refusal) => Err(refusal),
            Ok(()) => unreachable!("no bytes are a mask seed"),
        }
    }

    /// From the form of [`ExpandedKey::to_bytes`].
    pub fn from_bytes(params: Params, bytes: &[u8]) -> Result<ExpandedKey, Refusal> {
        if bytes.len() != params.expanded_key_bytes() {
            return Err(Refusal::BadKeyLength);
        }
        let (front, rest) = bytes.split_at(params.set.expanded_bytes());
        let mut words = Secret::zeros(params.share_words());
        for (word, eight) in words.iter_mut().zip(rest.chunks_exact(8)) {
            *word = u64::from_le_bytes(eight.try_into().expect("eight bytes"));
        }
        ExpandedKey::from_parts(params, front, &words)
    }

    /// The public key, its digest, then the words, little-endian.
    pub fn to_bytes(&self) -> Secret<u8> {
        let mut bytes = Secret::zeros(self.params.expanded_key_bytes());
        let (front, rest) = bytes.split_at_mut(self.bytes.len());
        front.copy_from_slice(&self.bytes);
        for (eight, word) in rest.chunks_exact_mut(8).zip(self.words.iter()) {
            eight.copy_from_slice(&word.to_le_bytes());
        }
        bytes
    }

    pub fn params(&self) -> Params {
        self.params
    }

    /// Polynomial by polynomial, the shares of one behind each other.
    pub fn words(&self) -> &[u64] {
        &self.words
    }

    /// Public key and digest, joined.
    pub fn bytes(&self) -> &[u8] {
        &self.bytes
    }

    /// The front of the bytes.
    pub fn public_key(&self) -> PublicKey {
        let set = self.params.set;
        PublicKey { set, bytes: self.bytes[..set.public_key_bytes()].into() }
    }

    /// The digest as it is held, true or not.
    pub fn digest(&self) -> &[u8] {
        &self.bytes[self.params.set.public_key_bytes()..]
    }

    /// Is the digest the hash of the public key? The unit hashes: it expands a signing key of one share that is this public key
    /// and zeros.
    pub fn digest_is_true(&self) -> bool {
        let params = Params::new(self.params.set, Shares::One);
        let (public, mut bytes) = (self.public_key(), Secret::zeros(params.signing_key_bytes()));
        bytes[..public.bytes.len()].copy_from_slice(&public.bytes);
        // the public key was checked, zeros are below q, and one share has no seeds: nothing is left to refuse
        let zero = SigningKey { params, bytes }.expand().expect("a key without a secret");
        zero.bytes == self.bytes
    }

    /// A new sharing of the same secret; public key and digest are carried on. The mask seed is for one call. Refused with 20 (no known
    /// mask seed is).
    ///
    /// ```
    /// use raccoon::*;
    ///
    /// # fn main() -> Result<(), Box<dyn std::error::Error>> {
    /// let params = Params::new(Set::Raccoon128, Shares::Two);
    /// let key = SigningKey::generate(KeygenSeeds::draw(params, os_random)?)?.expand()?;
    /// let mut mask_seed = [0; MASK_SEED_BYTES];
    /// os_random(&mut mask_seed)?;
    /// let fresh = key.refresh(&mask_seed)?;
    /// let sum = |key: &ExpandedKey| (key.words()[0] + key.words()[N]) % Q;
    /// assert_eq!(sum(&fresh), sum(&key));
    /// # Ok(())
    /// # }
    /// ```
    pub fn refresh(&self, mask_seed: &[u8; MASK_SEED_BYTES]) -> Result<ExpandedKey, Refusal> {
        let params = self.params;
        let (mut bytes, mut words) = (vec![0; self.bytes.len()], Secret::zeros(params.share_words()));
        let (set, shares) = params.numbers();
        Refusal::from_status(call::refresh_key(set, shares, (&self.bytes, &self.words), mask_seed, &mut bytes, &mut words))?;
        Ok(ExpandedKey { params, bytes: bytes.into(), words })
    }
}

impl fmt::Debug for ExpandedKey {
    fn fmt(&self, f: &mut fmt::Formatter) -> fmt::Result {
        write!(f, "ExpandedKey({}, ..)", self.params)
    }
}
