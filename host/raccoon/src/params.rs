//! Set, share count and the sizes that follow from them (paper 01, Figures; paper 000, Tables 2 to 4). What signing takes besides, the unit
//! tells ([`Lengths`]).

use crate::{Lengths, Refusal};
use std::fmt;

/// The modulus, 16515073 x 33292289.
pub const Q: u64 = 549_824_583_172_097;
/// Coefficients of a polynomial.
pub const N: usize = 512;
/// Bytes of one mask seed, as key generation and refreshing take it; of signing [`Lengths`] tells.
pub const MASK_SEED_BYTES: usize = 32;
/// The most attempts that signing may be allowed.
pub const MAX_ATTEMPTS: u32 = 16;
/// The longest message.
pub const MAX_MESSAGE_BYTES: usize = 4096;

/// A parameter set.
#[derive(Clone, Copy, PartialEq, Eq, PartialOrd, Ord, Hash, Debug)]
pub enum Set {
    Raccoon128,
    Raccoon192,
    Raccoon256,
}

impl Set {
    pub const ALL: [Set; 3] = [Set::Raccoon128, Set::Raccoon192, Set::Raccoon256];

    /// 128, 192 or 256.
    pub const fn number(self) -> u32 {
        match self {
            Set::Raccoon128 => 128,
            Set::Raccoon192 => 192,
            Set::Raccoon256 => 256,
        }
    }

    /// Rows of the matrix.
    pub const fn k(self) -> usize {
        match self {
            Set::Raccoon128 => 5,
            Set::Raccoon192 => 7,
            Set::Raccoon256 => 9,
        }
    }

    /// Columns of the matrix.
    pub const fn l(self) -> usize {
        match self {
            Set::Raccoon128 => 4,
            Set::Raccoon192 => 5,
            Set::Raccoon256 => 7,
        }
    }

    /// Bytes of one seed of matrix, noise or share.
    pub const fn seed_bytes(self) -> usize {
        self.number() as usize / 8
    }

    /// The seed of the matrix, then k polynomials of 7 bits a coefficient.
    pub const fn public_key_bytes(self) -> usize {
        self.seed_bytes() + 448 * self.k()
    }

    /// The digest of a public key, H(vk) of paper 000: SHAKE256 over it, 2 kappa bits.
    pub const fn digest_bytes(self) -> usize {
        self.number() as usize / 4
    }

    /// Bytes of an expanded key: the public key and its digest.
    pub const fn expanded_bytes(self) -> usize {
        self.public_key_bytes() + self.digest_bytes()
    }

    pub const fn signature_bytes(self) -> usize {
        match self {
            Set::Raccoon128 => 11_524,
            Set::Raccoon192 => 14_544,
            Set::Raccoon256 => 20_330,
        }
    }
}

impl TryFrom<u32> for Set {
    type Error = Refusal;

    fn try_from(number: u32) -> Result<Set, Refusal> {
        Set::ALL.into_iter().find(|set| set.number() == number).ok_or(Refusal::BadSet)
    }
}

/// A number of shares.
#[derive(Clone, Copy, PartialEq, Eq, PartialOrd, Ord, Hash, Debug)]
pub enum Shares {
    One,
    Two,
    Four,
    Eight,
    Sixteen,
    ThirtyTwo,
}

impl Shares {
    pub const ALL: [Shares; 6] = [Shares::One, Shares::Two, Shares::Four, Shares::Eight, Shares::Sixteen, Shares::ThirtyTwo];

    /// 1, 2, 4, 8, 16 or 32.
    pub const fn count(self) -> usize {
        1 << self as usize
    }

    /// How often each share takes noise.
    pub const fn repetitions(self) -> usize {
        match self {
            Shares::One => 8,
            Shares::Two | Shares::Eight | Shares::ThirtyTwo => 4,
            Shares::Four | Shares::Sixteen => 2,
        }
    }
}

impl TryFrom<u32> for Shares {
    type Error = Refusal;

    fn try_from(count: u32) -> Result<Shares, Refusal> {
        Shares::ALL.into_iter().find(|shares| shares.count() == count as usize).ok_or(Refusal::BadShareCount)
    }
}

/// One of the 18 pairs of set and share count.
///
/// ```
/// use raccoon::{Params, Set, Shares};
///
/// let params = Params::new(Set::Raccoon128, Shares::Four);
/// assert_eq!(params.to_string(), "128-4");
/// assert_eq!(params.signing_key_bytes(), 14848);
/// ```
#[derive(Clone, Copy, PartialEq, Eq, PartialOrd, Ord, Hash, Debug)]
pub struct Params {
    pub set: Set,
    pub shares: Shares,
}

impl Params {
    pub const fn new(set: Set, shares: Shares) -> Params {
        Params { set, shares }
    }

    /// All 18 pairs, set by set.
    pub fn all() -> impl Iterator<Item = Params> {
        Set::ALL.into_iter().flat_map(|set| Shares::ALL.map(|shares| Params { set, shares }))
    }

    /// The public key, a seed for each share but one, then that one in full, 49 bits a coefficient.
    pub const fn signing_key_bytes(self) -> usize {
        self.set.public_key_bytes() + (self.shares.count() - 1) * self.set.seed_bytes() + 3136 * self.set.l()
    }

    /// Words of an expanded key: l polynomials of all shares.
    pub const fn share_words(self) -> usize {
        N * self.set.l() * self.shares.count()
    }

    /// Bytes of an expanded key in a file: the public key, its digest, then the words, little-endian.
    pub const fn expanded_key_bytes(self) -> usize {
        self.set.expanded_bytes() + 8 * self.share_words()
    }

    /// Explicit noise of one attempt: l + k polynomials of all shares.
    pub const fn noise_words(self) -> usize {
        N * (self.set.l() + self.set.k()) * self.shares.count()
    }

    /// Seeds of key generation: the matrix seed, the noise seeds of one attempt, the share seeds.
    pub fn keygen_seed_bytes(self) -> usize {
        Lengths::of_one(self).noise_seed_bytes + self.shares.count() * self.set.seed_bytes()
    }

    pub(crate) fn numbers(self) -> (u32, u32) {
        (self.set.number(), self.shares.count() as u32)
    }
}

impl fmt::Display for Params {
    fn fmt(&self, f: &mut fmt::Formatter) -> fmt::Result {
        write!(f, "{}-{}", self.set.number(), self.shares.count())
    }
}
