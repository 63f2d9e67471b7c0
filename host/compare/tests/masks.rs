//! The mask generator (02, #105): the independent one on lent streams at every limit, and that of the proved code beside it, polynomial by
//! polynomial.

use compare::independent::keccak::shake256;
use compare::independent::masks::{MaskGenerator, Masks};
use compare::independent::ring::{N, Poly, Q};
use compare::known::xof;
use compare::layout::{draws, encoding_masks, words_below_q};
use compare::random::Random;
use compare::unit;

/// The polynomials of a generator, one behind the other, up to the first that does not fill.
fn polynomials(masks: Masks, most: usize) -> Vec<Poly> {
    let mut generator = MaskGenerator::new(masks);
    (0..most).map_while(|_| generator.poly().ok()).collect()
}

/// The first polynomial of lent draws, or 20, and the draws taken.
fn first(values: &[u64]) -> (Result<Poly, u32>, usize) {
    let bytes = draws(values);
    let mut generator = MaskGenerator::new(Masks::Lent(&bytes));
    (generator.poly(), generator.draws())
}

fn words(seed: u64, n: usize) -> Vec<u64> {
    words_below_q(n, &mut Random(seed))
}

/// 512 of 777 draws below q fill, wherever they stand, 511 do not; the 777th may be the last, the 778th is not looked at.
#[test]
fn exactly_777_draws() {
    let kept = words(80, N);
    let dropped = |n: usize| vec![Q; n];
    let filled = (Ok(kept.clone().try_into().unwrap()), 777);
    assert_eq!(first(&[dropped(265), kept.clone()].concat()), filled);
    assert_eq!(first(&[dropped(265), kept.clone(), words(81, N)].concat()), filled);
    assert_eq!(first(&[&kept[..511], &dropped(265), &kept[511..]].concat()), filled);
    // one dropped in front of each of the first 265
    let between: Vec<u64> =
        kept.iter().enumerate().flat_map(|(i, &word)| if i < 265 { vec![Q, word] } else { vec![word] }).collect();
    assert_eq!(first(&between), filled);
    for dry in [[dropped(266), kept.clone()].concat(), [&kept[..511], &dropped(266), &kept[511..]].concat(), dropped(2000)] {
        assert_eq!(first(&dry), (Err(20), 777));
    }
    // no draw is dropped: none behind the last used is taken
    assert_eq!(first(&[kept.clone(), words(82, N)].concat()), (Ok(kept.try_into().unwrap()), N));
}

/// q - 1 is kept, q and all above are dropped, and the seven bits above the 49 are of no account.
#[test]
fn values_around_q() {
    let zeros = vec![0; N - 1];
    let of = |value: u64| first(&[&[value], &zeros[..]].concat()).0;
    for kept in [0, 1, Q - 1] {
        let mut poly = [0; N];
        poly[0] = kept;
        assert_eq!(of(kept), Ok(poly), "{kept}");
        for high in [1, 0x40, 0x7f] {
            assert_eq!(of(kept | high << 49), Ok(poly), "{kept} with high bits {high}");
        }
    }
    for dropped in [Q, Q + 1, (1 << 49) - 1] {
        for high in [0, 1, 0x7f] {
            assert_eq!(of(dropped | high << 49), Err(20), "{dropped} with high bits {high}");
            let value = dropped | high << 49;
            assert_eq!(first(&[&[value, 5], &zeros[..]].concat()).0.unwrap()[..2], [5, 0], "{dropped} with high bits {high}");
        }
    }
}

/// A lent stream that ends is dry, also within a draw.
#[test]
fn lent_streams_that_end() {
    let all = draws(&words(83, N));
    for length in [0, 1, 6, 7, 511 * 7, 512 * 7 - 1] {
        assert_eq!(polynomials(Masks::Lent(&all[..length]), 1).len(), 0, "{length} bytes");
    }
    assert_eq!(polynomials(Masks::Lent(&all), 2).len(), 1);
    assert_eq!(polynomials(Masks::Lent(&[&all[..], &[0; 6]].concat()), 2).len(), 1);
}

/// The next polynomial begins behind the last draw used, with 777 draws of its own; a third that is dry ends it.
#[test]
fn the_next_begins_behind_the_last_draw_used() {
    let kept = words(84, 3 * N);
    let stream =
        [&[Q; 265][..], &kept[..N], &[Q + 1; 265], &kept[N..2 * N], &kept[2 * N..3 * N - 1], &[Q; 266], &kept[3 * N - 1..]];
    let bytes = draws(&stream.concat());
    let mut generator = MaskGenerator::new(Masks::Lent(&bytes));
    for (number, part) in kept.chunks_exact(N).take(2).enumerate() {
        assert_eq!(generator.poly().unwrap(), part, "polynomial {number}");
        assert_eq!(generator.draws(), 777 * (number + 1));
    }
    assert_eq!(generator.poly(), Err(20));
    // of draws that all are kept, each is taken once
    let bytes = draws(&kept);
    assert_eq!(polynomials(Masks::Lent(&bytes), 4).concat(), kept);
}

/// The stream of a seed is SHAKE256 of it, across the ends of its blocks: the polynomials are its draws below q, in order, none left out.
#[test]
fn the_stream_of_a_seed() {
    const POLYNOMIALS: usize = 1000;
    for seed in [vec![0; 32], vec![0xff; 32], xof("masks", 32)] {
        let mut stream = vec![0; 7 * 540 * POLYNOMIALS];
        shake256(&seed, &mut stream);
        let found = polynomials(Masks::Seed(&seed), POLYNOMIALS);
        assert_eq!(found, polynomials(Masks::Lent(&stream), POLYNOMIALS));
        let values = stream.chunks_exact(7).map(|x| x.iter().rev().fold(0, |sum, &byte| sum << 8 | u64::from(byte)) % (1 << 49));
        let kept: Vec<u64> = values.filter(|&value| value < Q).take(N * POLYNOMIALS).collect();
        assert_eq!(found.concat(), kept);
        // polynomials end anywhere in a block, some just at its end
        let mut generator = MaskGenerator::new(Masks::Seed(&seed));
        let mut rests = [0; 136];
        for _ in 0..POLYNOMIALS {
            generator.poly().unwrap();
            rests[7 * generator.draws() % 136] += 1;
        }
        assert!((0..136).filter(|&rest| rests[rest] > 0).count() > 100, "the places in a block at which polynomials end");
        assert!(rests[0] > 0, "a polynomial that ends with a block");
    }
}

/// A zero encoding draws for the left half, then for the right, then a polynomial for each pair, and so adds to zero.
#[test]
fn the_order_in_a_zero_encoding() {
    let kept = words(85, 4 * N);
    let bytes = draws(&kept);
    let r: Vec<&[u64]> = kept.chunks_exact(N).collect();
    let found = MaskGenerator::new(Masks::Lent(&bytes)).zero_encoding(4).unwrap();
    for x in 0..N {
        let minus = |word: u64| Q - word;
        let right = [r[0][x] + r[2][x], minus(r[0][x]) + r[3][x], r[1][x] + minus(r[2][x]), minus(r[1][x]) + minus(r[3][x])];
        assert_eq!([0, 1, 2, 3].map(|j| found[j][x]), right.map(|word| word % Q), "word {x}");
    }
    for (d, polynomials) in [(1, 0), (2, 1), (4, 4), (8, 12), (16, 32), (32, 80)] {
        assert_eq!(encoding_masks(d), polynomials);
        let bytes = draws(&words(86, polynomials * N));
        let mut generator = MaskGenerator::new(Masks::Lent(&bytes));
        let shares = generator.zero_encoding(d).unwrap();
        assert_eq!((shares.len(), generator.draws()), (d, polynomials * N));
        assert!((0..N).all(|x| shares.iter().map(|share| share[x]).sum::<u64>() % Q == 0), "{d} shares");
        // one draw less is too few
        if let Some(less) = bytes.len().checked_sub(7) {
            assert_eq!(MaskGenerator::new(Masks::Lent(&bytes[..less])).zero_encoding(d), Err(20), "{d} shares");
        }
    }
}

/// The generator of the proved code: the first polynomials of some seeds.
#[test]
fn the_generator_of_the_proved_code() {
    let mut random = Random(87);
    let seeds = [vec![0; 32], vec![0xff; 32], xof("mask", 32), random.bytes(32), random.bytes(32)];
    for seed in seeds {
        let expected = polynomials(Masks::Seed(&seed), 101);
        assert_eq!(expected.len(), 101);
        for (n, expected) in expected.iter().enumerate() {
            let mut poly = [u64::MAX; N];
            assert!(unit::masks(&seed, n as u32, &mut poly));
            assert_eq!(poly, *expected, "polynomial {n}");
        }
    }
}

/// Far behind its beginning, where the stream has gone through many blocks.
#[test]
fn a_late_polynomial_of_the_proved_code() {
    let seed = xof("late", 32);
    for n in [1000, 7359] {
        let mut poly = [0; N];
        assert!(unit::masks(&seed, n, &mut poly));
        let mut generator = MaskGenerator::new(Masks::Seed(&seed));
        assert_eq!(poly, (0..=n).map(|_| generator.poly().unwrap()).last().unwrap(), "polynomial {n}");
    }
}
