//! Well-formed keys, signatures and slips for cases to start from, made by the independent implementation, once for each set, share
//! count and edition.

use crate::layout::{bits, full_share, put_bits, sums};
use crate::random::Random;
use independent::keccak::shake256;
use independent::masks::Masks;
use independent::raccoon::{Edition, Noise, Params, expand, keygen, sign, with_digest};
use independent::ring::{N, Q, sample_q};
use independent::slip;
use std::sync::OnceLock;

pub const SETS: [usize; 3] = [128, 192, 256];
pub const SHARES: [usize; 6] = [1, 2, 4, 8, 16, 32];

/// A signing key, and the bytes and words that it expands to.
pub struct Pair {
    pub packed: Vec<u8>,
    pub bytes: Vec<u8>,
    pub words: Vec<u64>,
}

impl Pair {
    fn new(p: &Params, packed: Vec<u8>) -> Pair {
        let (bytes, words) = (with_digest(p, &packed[..p.vk_bytes()]), expand(p, &packed).expect("shares that fill"));
        Pair { packed, bytes, words }
    }

    /// A signature of a message, with random seeds for as many attempts as there can be.
    pub fn signed(&self, p: &Params, message: &[u8], random: &mut Random) -> Vec<u8> {
        let (noise, mask_seeds) = (random.bytes(16 * p.noise_bytes()), random.bytes(16 * 32));
        let (noise, masks) = (noise.chunks_exact(p.noise_bytes()), mask_seeds.chunks_exact(32));
        let attempts: Vec<_> = noise.map(Noise::Seeds).zip(masks.map(Masks::Seed)).collect();
        sign(p, &self.bytes, &self.words, message, &attempts).2.expect("a signature")
    }
}

/// What there is of a set, a share count and an edition.
pub struct Base {
    pub p: Params,
    /// As key generation makes it.
    pub key: Pair,
    /// With a secret so large that many a signature is too long, and another attempt is needed.
    pub large: Pair,
    pub message: Vec<u8>,
    /// Of the message, by `key`.
    pub signature: Vec<u8>,
    slips: OnceLock<[Vec<u8>; 4]>,
}

impl Base {
    fn new(p: Params, random: &mut Random) -> Base {
        let key = Pair::new(&p, keygen(&p, &random.bytes(p.keygen_bytes()), Masks::Seed(&random.bytes(32))).expect("a key"));
        let large = Pair::new(&p, large_key(&p, random));
        let message = random.bytes(50);
        let signature = key.signed(&p, &message, random);
        Base { p, key, large, message, signature, slips: OnceLock::new() }
    }

    pub fn public_key(&self) -> &[u8] {
        &self.key.packed[..self.p.vk_bytes()]
    }

    /// A slip signed by `key`; of the printed edition, else it verifies nowhere.
    pub fn slip(&self, movement: u16, track: u8, text: &[u8], random: &mut Random) -> Vec<u8> {
        let front = slip::front(movement, track, text).expect("a text of at most 512 bytes");
        let signature = self.key.signed(&self.p, &front, random);
        [front, signature].concat()
    }

    /// Slips with random numbers and texts from the shortest to the longest, made when they are first asked for.
    pub fn slips(&self) -> &[Vec<u8>; 4] {
        self.slips.get_or_init(|| {
            let random = &mut Random(bits(&self.signature, 0, 57));
            [0, 1, 200, 512].map(|n| {
                let text = random.bytes(n);
                self.slip(random.word() as u16, random.word() as u8, &text, random)
            })
        })
    }
}

/// A signing key whose secret is a constant polynomial, and zero polynomials behind it. The constant makes signatures some 300
/// bits longer, about as many as there is room for.
fn large_key(p: &Params, random: &mut Random) -> Vec<u8> {
    let constant = (320 << 40) / p.omega as u64;
    let mut key = random.bytes(p.sk_bytes());
    for row in 0..p.k {
        let mut stream = [0u8; 777 * 7];
        shake256(&[&[65, row as u8, 0, 0, 0, 0, 0, 0], &key[..p.seed_bytes()]].concat(), &mut stream);
        let entry = sample_q(&stream).expect("a polynomial of the matrix");
        for (i, &a) in entry.iter().enumerate() {
            let product = (u128::from(a) * u128::from(constant) % u128::from(Q)) as u64;
            put_bits(&mut key, 8 * p.seed_bytes() + 7 * (row * N + i), 7, ((product + (1 << 41)) >> 42) % 125);
        }
    }
    // the full share is what the others lack; a constant has the same value at all points of the transform
    key[full_share(p) / 8..].fill(0);
    let others = sums(&expand(p, &key).expect("shares that fill"), p.d);
    for (i, sum) in others.iter().enumerate() {
        let value = if i < N { constant } else { 0 };
        put_bits(&mut key, full_share(p) + 49 * i, 49, (value + Q - sum) % Q);
    }
    key
}

/// The bases of all sets, share counts and editions, each made when it is first asked for.
pub struct Pool {
    seed: u64,
    bases: [OnceLock<Base>; 36],
}

impl Pool {
    pub fn new(seed: u64) -> Pool {
        Pool { seed, bases: [const { OnceLock::new() }; 36] }
    }

    /// The base of a set, a share count and an edition, the first two by their number in [`SETS`] and [`SHARES`].
    pub fn base(&self, set: usize, shares: usize, edition: Edition) -> &Base {
        let number = 2 * (6 * set + shares) + usize::from(edition == Edition::Kat);
        self.bases[number].get_or_init(|| {
            let p = Params::new(SETS[set], SHARES[shares], edition).expect("a column of the tables");
            Base::new(p, &mut Random(Random(self.seed ^ number as u64).word()))
        })
    }
}
