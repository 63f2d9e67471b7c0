//! How many Keccak permutations a call takes: the streams of paper 000 and of the mask generator, one by one as the code makes them.
//! Those of paper 000 go by formulas. How far the mask generator goes depends on how many draws it drops, so its draws are counted.
//!
//! Both implementations make the same streams but for how often ([`Maker`]). The counts of the independent implementation are
//! compared with its counter whenever the speed report runs. Those of the unit can be compared with the calls of
//! `hash::keccak::permute` that callgrind counts (`valgrind --tool=callgrind --dump-after='raccoon_*'`; the function is inlined
//! nowhere); before the mask generator dropped draws they were equal for all five calls at all 18 pairs.

use independent::masks::{MaskGenerator, Masks};
use independent::raccoon::Params;
use independent::ring::N;

/// Bytes of a block.
const RATE: usize = 136;

/// A uniform polynomial: 28 blocks are 544 draws, of which 512 or more are kept for all but one polynomial in a million.
const UNIFORM: usize = 28;

/// A challenge polynomial: a block is 68 draws, which take 44 places of 512 all but always.
const CHALLENGE: usize = 1;

/// Bytes of the messages that are signed and verified.
pub const MESSAGE: usize = 100;

/// The mask seed of all calls.
pub const MASK_SEED: [u8; 32] = [8; 32];

/// The calls that are counted.
pub const CALLS: [&str; 5] = ["generating", "expanding", "refreshing", "signing", "verifying"];

/// Whose permutations are counted.
#[derive(Clone, Copy, PartialEq, Eq, Debug)]
pub enum Maker {
    /// Samples seeded shares twice in expanding, and draws the masks twice in refreshing: first to ask whether all fill, then to write. The
    /// mask generator makes its next block as soon as a draw takes the last byte of the one before.
    Unit,
    /// Samples and draws them once, and makes no block of which it takes no byte.
    Independent,
}

impl Maker {
    /// Permutations of each of [`CALLS`] at a set and share count; signing from seeds with an expanded key, in one attempt.
    pub fn counts(self, p: &Params) -> [u64; 5] {
        let passes = if self == Maker::Unit { 2 } else { 1 };
        let (matrix, seeded) = (p.k * p.l * UNIFORM, p.l * (p.d - 1) * UNIFORM);
        let (vector, noisy) = (p.l, (p.l + p.k) * p.rep);
        let (digest, challenge) = (absorbed(p.vk_bytes()), binding(p) + challenge_hash(p) + CHALLENGE);
        let counts = [
            self.masks(p.d, vector + noisy) + noise(p, p.ut) + matrix + seeded,
            passes * seeded + digest,
            passes * self.masks(p.d, vector),
            self.masks(p.d, vector + noisy + 3 * vector) + noise(p, p.uw) + matrix + challenge,
            matrix + digest + challenge,
        ];
        counts.map(|count| count as u64)
    }

    /// The mask generator over so many zero encodings.
    fn masks(self, d: usize, encodings: usize) -> usize {
        let bytes = 7 * mask_draws(d, encodings);
        match self {
            Maker::Unit => 1 + bytes / RATE,
            Maker::Independent => squeezed(bytes),
        }
    }
}

/// The draws of so many zero encodings from [`MASK_SEED`], by making them.
fn mask_draws(d: usize, encodings: usize) -> usize {
    let mut masks = MaskGenerator::new(Masks::Seed(&MASK_SEED));
    for _ in 0..encodings {
        masks.zero_encoding(d).expect("masks that fill");
    }
    masks.draws()
}

/// Blocks of a stream that is squeezed so far; its header and seed are absorbed in one.
fn squeezed(bytes: usize) -> usize {
    bytes.div_ceil(RATE)
}

/// Blocks of a message with its padding; the digest takes no more than one.
fn absorbed(bytes: usize) -> usize {
    bytes / RATE + 1
}

/// The noise of l + k polynomials: a stream of u bits a coefficient, in whole bytes, for each share and repetition.
fn noise(p: &Params, u: usize) -> usize {
    (p.l + p.k) * p.rep * p.d * squeezed(u.div_ceil(8) * N)
}

/// mu, the hash of the public key's digest and the message.
fn binding(p: &Params) -> usize {
    absorbed(p.hash_bytes() + MESSAGE)
}

/// The hash of a header, the rounded commitment, a byte for each coefficient, and mu.
fn challenge_hash(p: &Params) -> usize {
    absorbed(8 + p.k * N + p.hash_bytes())
}
