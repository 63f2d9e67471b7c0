//! The ring of the proved code against the independent implementation, and that one against its own definitions.

use compare::independent::keccak;
use compare::independent::ring::{N, PRIMES, Poly, Q, Tables, sample_q, schoolbook, values};
use compare::random::Random;
use compare::unit;

fn random_poly(random: &mut Random) -> Poly {
    std::array::from_fn(|_| random.word() % Q)
}

/// x^i, with the coefficient c.
fn monomial(i: usize, c: u64) -> Poly {
    std::array::from_fn(|j| if i == j { c } else { 0 })
}

#[test]
fn independent_transform_is_its_definition() {
    let tables = Tables::new();
    let mut random = Random(10);
    for _ in 0..4 {
        let (f, g) = (random_poly(&mut random), random_poly(&mut random));
        assert_eq!(tables.transform(&f), values(&f));
        assert_eq!(tables.inverse(&tables.transform(&f)), f);
        let product = tables.inverse(&Tables::pointwise(&tables.transform(&f), &tables.transform(&g)));
        assert_eq!(product, schoolbook(&f, &g));
    }
}

#[test]
fn transform_of_every_power_of_x() {
    let tables = Tables::new();
    for i in 0..N {
        let mut f = monomial(i, 1);
        assert!(unit::ntt(&mut f));
        assert_eq!(f, tables.transform(&monomial(i, 1)), "x^{i}");
    }
    let mut f = monomial(511, Q - 1);
    assert!(unit::ntt(&mut f));
    assert_eq!(f, values(&monomial(511, Q - 1)));
}

#[test]
fn products_are_schoolbook_products() {
    let mut random = Random(11);
    let tables = Tables::new();
    for round in 0..200 {
        let (f, g) = (random_poly(&mut random), random_poly(&mut random));
        let mut product = f;
        assert!(unit::product(&mut product, &g));
        let expected = if round < 6 {
            schoolbook(&f, &g)
        } else {
            tables.inverse(&Tables::pointwise(&tables.transform(&f), &tables.transform(&g)))
        };
        assert_eq!(product, expected);
    }
    let extremes = [0, 1, Q - 1, Q / 2, Q / 2 + 1, PRIMES[0], PRIMES[1], Q - PRIMES[0]];
    for a in extremes {
        for b in extremes {
            let mut product = monomial(511, a);
            assert!(unit::product(&mut product, &monomial(1, b)));
            assert_eq!(product, schoolbook(&monomial(511, a), &monomial(1, b)));
        }
    }
}

/// The word below q that is 1 modulo the prime of that index and 0 modulo the other.
fn unit_of(index: usize) -> u128 {
    let (p, other) = (PRIMES[index], PRIMES[1 - index]);
    let factor = (1..p).find(|k| other * k % p == 1).unwrap();
    u128::from(other * factor)
}

/// The nine words that are 0, 1 or -1 modulo each prime: inside the ring, sums and products of these reach furthest.
fn extreme_words() -> Vec<u64> {
    let units = [unit_of(0), unit_of(1)];
    let residues = |index: usize| [0, 1, u128::from(PRIMES[index] - 1)];
    let words = residues(0).into_iter().flat_map(|r| residues(1).map(|s| (r * units[0] + s * units[1]) % u128::from(Q)));
    words.map(|word| u64::try_from(word).unwrap()).collect()
}

#[test]
fn extreme_residues_at_every_place() {
    let tables = Tables::new();
    let mut random = Random(13);
    let words = extreme_words();
    assert!(words.contains(&0) && words.contains(&1) && words.contains(&(Q - 1)));
    let mut polys: Vec<Poly> = words.iter().flat_map(|&word| [[word; N], monomial(0, word), monomial(511, word)]).collect();
    polys.extend((0..60).map(|_| std::array::from_fn(|_| words[random.below(words.len())])));
    for f in &polys {
        let mut transform = *f;
        assert!(unit::ntt(&mut transform));
        assert_eq!(transform, tables.transform(f));
        let g = &polys[random.below(polys.len())];
        let mut product = *f;
        assert!(unit::product(&mut product, g));
        assert_eq!(product, tables.inverse(&Tables::pointwise(&transform, &tables.transform(g))));
    }
}

/// Values that are a in every other block of 2^k and b in those between, for each k: on the way back the sums of one half of a
/// block then reach furthest, and those of the other stay small.
#[test]
fn extreme_values_in_blocks() {
    let tables = Tables::new();
    for k in 0..9 {
        for (a, b) in [(0, 1), (0, Q - 1), (1, 0), (1, Q - 1), (Q - 1, 0), (Q - 1, 1)] {
            let values: Poly = std::array::from_fn(|i| if i >> k & 1 == 0 { a } else { b });
            let f = tables.inverse(&values);
            let mut transform = f;
            assert!(unit::ntt(&mut transform));
            assert_eq!(transform, values);
            let mut product = f;
            assert!(unit::product(&mut product, &monomial(0, 1)));
            assert_eq!(product, f, "blocks of 2^{k}, {a} and {b}");
        }
    }
}

#[test]
fn words_of_q_and_above_are_refused() {
    for word in [Q, Q + 1, u64::MAX] {
        for place in [0, 200, 511] {
            let bad = monomial(place, word);
            let (mut f, mut g) = (bad, monomial(0, 1));
            assert!(!unit::ntt(&mut f));
            assert!(!unit::product(&mut f, &g));
            assert!(!unit::product(&mut g, &bad));
            assert_eq!((f, g), (bad, monomial(0, 1)));
        }
    }
}

#[test]
fn uniform_polynomials_of_streams() {
    let mut random = Random(12);
    for n in [0, 1, 16, 24, 31, 32, 33, 200] {
        for _ in 0..20 {
            let header: [u8; 8] = random.bytes(8).try_into().unwrap();
            let seed = random.bytes(n);
            let mut stream = [0u8; 5439];
            keccak::shake256(&[&header[..], &seed].concat(), &mut stream);
            assert_eq!(unit::sample_q(&header, &seed), sample_q(&stream));
        }
    }
}
