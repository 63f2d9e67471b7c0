//! The calls at all 18 pairs of set and share count, in the printed edition, and the permutations that they take.

use super::table::{Table, cell};
use super::{Best, Turns};
use crate::known::xof;
use crate::permutations::{CALLS, MASK_SEED, MESSAGE, Maker};
use crate::unit;
use independent::masks::Masks;
use independent::raccoon::{self, Edition, Noise, Params};
use std::hint::black_box;

const SETS: [usize; 3] = [128, 192, 256];
const SHARES: [usize; 6] = [1, 2, 4, 8, 16, 32];
const MASKS: Masks = Masks::Seed(&MASK_SEED);

/// What the calls of all pairs are lent.
pub fn lent() -> Vec<Lent> {
    let pairs = SETS.into_iter().flat_map(|set| SHARES.map(|d| (set, d)));
    pairs.map(|(set, d)| Lent::new(Params::new(set, d, Edition::Printed).unwrap())).collect()
}

/// One round over [`CALLS`] at all pairs.
pub fn measured(lent: &[Lent], turns: Turns) -> Vec<Best> {
    let calls = [Lent::generating, Lent::expanding, Lent::refreshing, Lent::signing, Lent::verifying];
    lent.iter().flat_map(|lent| calls.map(|call| call(lent, turns))).collect()
}

/// A set and a share count, and for each of [`CALLS`] the best times and the unit's permutations.
pub struct Pair {
    pub set: usize,
    pub d: usize,
    calls: Vec<(Best, u64)>,
}

/// The unit's permutations are those of [`Maker::counts`]; the independent implementation's were counted as it ran, and must be those too.
pub fn pairs(lent: &[Lent], calls: &[Best]) -> Vec<Pair> {
    let pair = |(Lent { p, .. }, calls): (&Lent, &[Best])| {
        let counted: Vec<u64> = calls.iter().map(|best| best.permutations).collect();
        assert_eq!(
            counted,
            Maker::Independent.counts(p),
            "permutations of the independent implementation at {}-{}",
            p.kappa,
            p.d
        );
        Pair { set: p.kappa, d: p.d, calls: calls.iter().copied().zip(Maker::Unit.counts(p)).collect() }
    };
    lent.iter().zip(calls.chunks_exact(CALLS.len())).map(pair).collect()
}

impl Pair {
    fn name(&self) -> String {
        format!("{}-{}", self.set, self.d)
    }

    /// The unit's time of one of [`CALLS`].
    pub fn time(&self, call: usize) -> f64 {
        self.calls[call].0.unit
    }

    fn row(&self, cell: impl Fn(&(Best, u64)) -> [String; 3]) -> (String, Vec<[String; 3]>) {
        (self.name(), self.calls.iter().map(cell).collect())
    }
}

/// Milliseconds, to about three digits.
pub fn milliseconds(ns: f64) -> String {
    let ms = ns / 1e6;
    let digits = [1.0, 10.0, 100.0].iter().filter(|&&limit| ms < limit).count();
    format!("{ms:.digits$}")
}

pub fn times(pairs: &[Pair]) -> Table {
    Table {
        title: "Calls",
        caption: "milliseconds; signing is one attempt with an expanded key, and verifying depends on the set alone",
        corner: "set-d",
        heads: CALLS.to_vec(),
        figures: ["unit", "indep", "ratio"],
        joints: [" / ", " = "],
        rows: pairs.iter().map(|pair| pair.row(|(best, _)| cell(best, milliseconds))).collect(),
    }
}

/// The counts, and the share of the unit's time that its permutations take, where one takes so many nanoseconds.
pub fn permutations(pairs: &[Pair], permutation: f64) -> Table {
    let figures = |&(best, unit): &(Best, u64)| {
        let share = 100.0 * unit as f64 * permutation / best.unit;
        [unit.to_string(), best.permutations.to_string(), format!("{share:.0}")]
    };
    Table {
        title: "Permutations",
        caption: "how many, and percent of the unit's time that its own take",
        corner: "set-d",
        heads: CALLS.to_vec(),
        figures: ["unit", "indep", "%"],
        joints: [" / ", ", "],
        rows: pairs.iter().map(|pair| pair.row(figures)).collect(),
    }
}

/// What the calls at a pair are lent, made by the independent implementation.
pub struct Lent {
    p: Params,
    seeds: Vec<u8>,
    key: Vec<u8>,
    bytes: Vec<u8>,
    words: Vec<u64>,
    message: Vec<u8>,
    noise: Vec<u8>,
    signature: Vec<u8>,
}

impl Lent {
    fn new(p: Params) -> Lent {
        let (seeds, message, noise) = (xof("seeds", p.keygen_bytes()), xof("message", MESSAGE), xof("noise", p.noise_bytes()));
        let key = raccoon::keygen(&p, &seeds, MASKS).unwrap();
        let (bytes, words) = (raccoon::with_digest(&p, &key[..p.vk_bytes()]), raccoon::expand(&p, &key).unwrap());
        let mut lent = Lent { p, seeds, key, bytes, words, message, noise, signature: vec![] };
        lent.signature = lent.signed();
        lent
    }

    fn public_key(&self) -> &[u8] {
        &self.key[..self.p.vk_bytes()]
    }

    /// The independent implementation's signature, of one attempt.
    fn signed(&self) -> Vec<u8> {
        let attempt = (Noise::Seeds(&self.noise), MASKS);
        raccoon::sign(&self.p, black_box(&self.bytes), &self.words, &self.message, &[attempt]).2.unwrap()
    }

    /// The numbers of set and shares for the unit's calls.
    fn numbers(&self) -> (u32, u32) {
        (self.p.kappa as u32, self.p.d as u32)
    }

    fn generating(&self, turns: Turns) -> Best {
        let (p, (set, d)) = (&self.p, self.numbers());
        let (mut key, mut work, mut other) = (vec![0u8; p.sk_bytes()], vec![0u64; p.work_words()], vec![]);
        let best = turns.best(
            || assert_eq!(unit::keygen(p.edition, set, d, black_box(&self.seeds), &MASK_SEED, &mut key, &mut work), 0),
            || other = raccoon::keygen(p, black_box(&self.seeds), MASKS).unwrap(),
        );
        assert_eq!(key, other);
        best
    }

    fn expanding(&self, turns: Turns) -> Best {
        let (p, (set, d)) = (&self.p, self.numbers());
        let (mut bytes, mut words, mut other) = (vec![0u8; self.bytes.len()], vec![0u64; self.words.len()], (vec![], vec![]));
        let best = turns.best(
            || assert_eq!(unit::expand_key(p.edition, set, d, black_box(&self.key), &mut bytes, &mut words), 0),
            || other = (raccoon::with_digest(p, black_box(self.public_key())), raccoon::expand(p, black_box(&self.key)).unwrap()),
        );
        assert_eq!((bytes, words), other);
        best
    }

    fn refreshing(&self, turns: Turns) -> Best {
        let (set, d) = self.numbers();
        let key = (&self.bytes[..], &self.words[..]);
        let (mut bytes, mut words, mut other) = (vec![0u8; key.0.len()], vec![0u64; key.1.len()], vec![]);
        let best = turns.best(
            || assert_eq!(unit::refresh_key(set, d, black_box(key), &MASK_SEED, &mut bytes, &mut words), 0),
            || other = raccoon::refresh(&self.p, black_box(key.1), MASKS).unwrap(),
        );
        assert_eq!((&bytes[..], words), (key.0, other));
        best
    }

    fn signing(&self, turns: Turns) -> Best {
        let (p, (set, shares)) = (&self.p, self.numbers());
        let (mut signature, mut work, mut other) = (vec![0u8; p.sig_bytes], vec![0u64; p.work_words()], vec![]);
        let (key, noise) = (unit::Key::Expanded(&self.bytes, &self.words), Noise::Seeds(&self.noise));
        let input = unit::Signing { set, shares, attempts: 1, key, message: &self.message, noise, mask_seeds: &MASK_SEED };
        let made = unit::Signed { status: 0, attempts: 1 };
        let best = turns.best(
            || assert_eq!(unit::sign(p.edition, black_box(&input), &mut signature, &mut work), made),
            || other = self.signed(),
        );
        assert_eq!(signature, other);
        best
    }

    fn verifying(&self, turns: Turns) -> Best {
        let (edition, set, key) = (self.p.edition, self.p.kappa, self.public_key());
        turns.best(
            || assert_eq!(unit::verify(edition, set as u32, black_box(key), &self.message, &self.signature), 0),
            || assert_eq!(raccoon::verify(set, edition, black_box(key), &self.message, &self.signature), 0),
        )
    }
}
