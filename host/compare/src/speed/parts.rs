//! The parts of the calls: the permutation and streams, the transform and the ring, the uniform sampler, the mask generator.

use super::table::{Table, cell};
use super::{Best, Turns};
use crate::permutations::MASK_SEED;
use crate::unit;
use independent::masks::{MaskGenerator, Masks};
use independent::{keccak, ring};
use std::hint::black_box;

const PARTS: [&str; 7] = [
    "permutation",
    "stream to a slice, per block of 136 bytes",
    "message absorbed, per block of 136 bytes",
    "transform",
    "product: two transforms, pointwise, inverse",
    "uniform polynomial",
    "mask polynomial",
];

/// One round over the parts, the permutation first.
pub fn measured(turns: Turns) -> Vec<Best> {
    [permutation, stream, absorbing, transform, product, uniform, masks].map(|part| part(turns)).to_vec()
}

pub fn table(parts: &[Best]) -> Table {
    let nanoseconds = |ns: f64| format!("{ns:.0}");
    Table {
        title: "Parts",
        caption: "what the calls are made of",
        corner: "part",
        heads: vec!["nanoseconds"],
        figures: ["unit", "independent", "ratio"],
        joints: [" / ", " = "],
        rows: PARTS.iter().zip(parts).map(|(name, best)| (name.to_string(), vec![cell(best, nanoseconds)])).collect(),
    }
}

fn permutation(turns: Turns) -> Best {
    const N: usize = 100;
    let (mut lane, mut other) = (0, [0u64; 25]);
    let best = turns.best(
        || lane = unit::permutations(black_box(N)),
        || {
            other = [0; 25];
            for _ in 0..N {
                keccak::permute(black_box(&mut other));
            }
        },
    );
    assert_eq!(lane, other[0]);
    best.part(N)
}

fn stream(turns: Turns) -> Best {
    let (header, seed) = (*b"A\x01\x02\0\0\0\0\0", [7u8; 32]);
    let mut out = vec![0u8; 28 * 136];
    let mut other = out.clone();
    let best = turns.best(
        || unit::stream(black_box(&header), black_box(&seed), &mut out),
        || keccak::shake256(black_box(&[&header[..], &seed].concat()), &mut other),
    );
    assert_eq!(out, other);
    best.part(28)
}

fn absorbing(turns: Turns) -> Best {
    let message = vec![0x5au8; 30 * 136 - 1];
    let (mut digest, mut other) = ([0u8; 32], [0u8; 32]);
    let best =
        turns.best(|| unit::shake256(black_box(&message), &mut digest), || keccak::shake256(black_box(&message), &mut other));
    assert_eq!(digest, other);
    best.part(30)
}

/// A polynomial of multiples of a number.
fn poly(step: u64) -> ring::Poly {
    std::array::from_fn(|i| (i as u64 * step + 7) % ring::Q)
}

/// By the same method on both sides: residues of the two primes, butterflies in place.
fn transform(turns: Turns) -> Best {
    let (tables, f) = (ring::Tables::new(), poly(0x1234_5678_9abc));
    let (mut x, mut y) = (f, f);
    let best = turns.best(
        || {
            x = f;
            black_box(unit::ntt(black_box(&mut x)));
        },
        || y = tables.transform(black_box(&f)),
    );
    assert_eq!(x, y);
    best
}

fn product(turns: Turns) -> Best {
    let (tables, f, g) = (ring::Tables::new(), poly(0x1234_5678_9abc), poly(0x0fed_cba9_8765));
    let (mut x, mut y) = (f, f);
    let best = turns.best(
        || {
            x = f;
            black_box(unit::product(black_box(&mut x), black_box(&g)));
        },
        || {
            let values = ring::Tables::pointwise(&tables.transform(black_box(&f)), &tables.transform(black_box(&g)));
            y = tables.inverse(black_box(&values));
        },
    );
    assert_eq!(x, y);
    best
}

fn uniform(turns: Turns) -> Best {
    let (header, seed) = (*b"A\x01\x02\0\0\0\0\0", [9u8; 16]);
    let (mut p, mut r) = (None, None);
    let best = turns.best(
        || p = unit::sample_q(black_box(&header), black_box(&seed)),
        || {
            let mut stream = [0u8; 28 * 136];
            keccak::shake256(black_box(&[&header[..], &seed].concat()), &mut stream);
            r = ring::sample_q(&stream);
        },
    );
    assert_eq!(p, r);
    assert!(p.is_some());
    best
}

/// The polynomials of a seed up to the last of these, each behind the one before.
fn masks(turns: Turns) -> Best {
    const N: usize = 100;
    let (mut x, mut y) = ([0; ring::N], [0; ring::N]);
    let best = turns.best(
        || assert!(unit::masks(black_box(&MASK_SEED), N as u32 - 1, &mut x)),
        || {
            let mut masks = MaskGenerator::new(Masks::Seed(black_box(&MASK_SEED)));
            for _ in 0..N {
                y = black_box(masks.poly()).unwrap();
            }
        },
    );
    assert_eq!(x, y);
    best.part(N)
}
