//! Check 20 (02, #105), of the expectation that the proved code is compared with: where masks run dry in each call, ahead of and behind which
//! checks, and what it leaves. No mask seed is known that runs dry, so the streams are lent; the proved code takes seeds alone.

use compare::expect::{keygen_from, refresh_key_from, sign_from};
use compare::independent::masks::Masks;
use compare::independent::raccoon::{Edition, Noise, Params, expand, keygen, refresh, sign, with_digest};
use compare::independent::ring::{N, Q};
use compare::known::xof;
use compare::layout::{draws, encoding_masks, laid_out, share_words, small_totals, words_below_q};
use compare::random::Random;
use compare::unit::{Key, Signed, Signing};

/// A stream of so many polynomials and then of 777 draws of q, with draws behind them that would fill: number `filled` runs dry.
fn dry_at(filled: usize) -> Vec<u8> {
    let mut random = Random(filled as u64);
    draws(&[words_below_q(filled * N, &mut random), vec![Q; 777], words_below_q(50 * N, &mut random)].concat())
}

fn params(set: usize, d: usize) -> Params {
    Params::new(set, d, Edition::Printed).unwrap()
}

fn seeds(p: &Params) -> Vec<u8> {
    xof(&format!("seeds {}-{}", p.kappa, p.d), p.keygen_bytes())
}

/// A key as it is expanded.
fn expanded(p: &Params) -> (Vec<u8>, Vec<u64>) {
    let key = keygen(p, &seeds(p), Masks::Seed(&[1; 32])).unwrap();
    (with_digest(p, &key[..p.vk_bytes()]), expand(p, &key).unwrap())
}

const PAIRS: [(usize, usize); 4] = [(128, 2), (128, 4), (192, 2), (256, 2)];

/// Params whose uniform polynomials never fill.
fn unfilled(p: &Params) -> Params {
    Params { uniform_draws: N - 1, ..*p }
}

/// The l zero encodings of line 3 and one for each repetition of each noise polynomial.
#[test]
fn generating_at_every_polynomial() {
    for (set, d) in PAIRS {
        let (p, seeds) = (params(set, d), seeds(&params(set, d)));
        let all = (p.l + (p.l + p.k) * p.rep) * encoding_masks(d);
        let key = keygen(&p, &seeds, Masks::Seed(&[1; 32]));
        for filled in 0..all {
            assert_eq!(keygen(&p, &seeds, Masks::Lent(&dry_at(filled))), Err(20), "{set}-{d}: after {filled} of {all}");
        }
        assert!(key.is_ok() && keygen(&p, &seeds, Masks::Lent(&dry_at(all))) == key, "{set}-{d}");
    }
}

/// 10 comes first, for the matrix and for the share seeds.
#[test]
fn generating_puts_10_before_20() {
    let p = params(128, 8);
    let dry = dry_at(0);
    assert_eq!(keygen(&unfilled(&p), &seeds(&p), Masks::Lent(&dry)), Err(10));
    // as many draws as the matrix needs and the share seeds do not have enough of
    let mut found = 0;
    for number in 0..20 {
        let seeds = xof(&format!("seeds {number}"), p.keygen_bytes());
        let vk = [&seeds[..p.seed_bytes()], &vec![0; p.vk_bytes() - p.seed_bytes()]].concat();
        let matrix_fills = |p: &Params| sign(p, &with_digest(p, &vk), &vec![0; share_words(p)], &[], &[]).0 != 10;
        let least = (N..777).map(|draws| Params { uniform_draws: draws, ..p }).find(matrix_fills).unwrap();
        if keygen(&least, &seeds, Masks::Seed(&[1; 32])) == Err(10) {
            assert_eq!(keygen(&least, &seeds, Masks::Lent(&dry)), Err(10), "share seeds");
            found += 1;
        } else {
            assert_eq!(keygen(&least, &seeds, Masks::Lent(&dry)), Err(20));
        }
    }
    assert!((1..20).contains(&found), "{found} of 20");
}

#[test]
fn refreshing_at_every_polynomial() {
    for (set, d) in PAIRS {
        let p = params(set, d);
        let (_, words) = expanded(&p);
        let all = p.l * encoding_masks(d);
        for filled in 0..all {
            assert_eq!(refresh(&p, &words, Masks::Lent(&dry_at(filled))), Err(20), "{set}-{d}: after {filled} of {all}");
        }
        assert!(refresh(&p, &words, Masks::Lent(&dry_at(all))).is_ok(), "{set}-{d}");
    }
}

/// One share draws no masks: nothing can run dry.
#[test]
fn one_share_draws_no_masks() {
    let p = params(128, 1);
    let none = Masks::Lent(&[]);
    assert_eq!(keygen(&p, &seeds(&p), none), keygen(&p, &seeds(&p), Masks::Seed(&[1; 32])));
    let (bytes, words) = expanded(&p);
    assert_eq!(refresh(&p, &words, none), Ok(words.clone()));
    let noise = xof("noise", p.noise_bytes());
    assert_eq!(sign(&p, &bytes, &words, b"dry", &[(Noise::Seeds(&noise), none)]).0, 0);
}

/// A key, and noise of one attempt that passes in both forms, and explicit noise that does not.
struct Lent {
    p: Params,
    bytes: Vec<u8>,
    words: Vec<u64>,
    seeds: Vec<u8>,
    small: Vec<u64>,
    large: Vec<u64>,
}

impl Lent {
    fn new(set: usize, d: usize) -> Lent {
        let p = params(set, d);
        let (bytes, words) = expanded(&p);
        let random = &mut Random(90);
        let totals = small_totals(&p, random);
        let moved: Vec<u64> = totals.iter().map(|x| (x + (1 << 47)) % Q).collect();
        let [small, large] = [totals, moved].map(|x| laid_out(&x, d, &words_below_q(x.len() * (d - 1), random)));
        Lent { p, bytes, words, seeds: xof("noise", p.noise_bytes()), small, large }
    }

    /// The status and the attempts, with the params changed by a test or not.
    fn numbers(&self, p: &Params, attempts: &[(Noise, Masks)]) -> (u32, u32) {
        let (status, number, signature) = sign(p, &self.bytes, &self.words, b"dry", attempts);
        assert_eq!(signature.is_some(), status == 0);
        (status, number)
    }

    /// How many polynomials are drawn before the challenge, and how many in all: lines 4, 5 and 7, then 12, 13 and 15.
    fn polynomials(&self, repetitions: usize) -> (usize, usize) {
        let (p, one) = (&self.p, encoding_masks(self.p.d));
        let before = (p.l + (p.l + p.k) * repetitions) * one;
        (before, before + 3 * p.l * one)
    }
}

/// Dry before the challenge is ahead of 11, dry behind it is behind 11 and before the bounds and the length, so before 12.
#[test]
fn signing_at_every_polynomial() {
    for (set, d) in PAIRS {
        let lent = Lent::new(set, d);
        let p = &lent.p;
        // more places than a polynomial has: the challenge never fills
        let stuck = &Params { omega: N + 1, ..*p };
        for (noise, repetitions, end) in
            [(Noise::Seeds(&lent.seeds), p.rep, 0), (Noise::Words(&lent.small), 1, 0), (Noise::Words(&lent.large), 1, 12)]
        {
            let (before, all) = lent.polynomials(repetitions);
            for filled in 0..=all {
                let stream = dry_at(filled);
                let attempt = (noise, Masks::Lent(&stream));
                let what = format!("{set}-{d}: after {filled} of {before} and {all}");
                assert_eq!(lent.numbers(p, &[attempt]), (if filled < all { 20 } else { end }, 1), "{what}");
                assert_eq!(
                    lent.numbers(stuck, &[attempt]),
                    (if filled < before { 20 } else { 11 }, 1),
                    "{what}, and no challenge"
                );
                assert_eq!(lent.numbers(&unfilled(p), &[attempt]), (10, 0), "{what}, and no matrix");
            }
        }
    }
}

/// A dry attempt ends the call with its own number, though attempts are left; an attempt that passes comes before a later one that is dry.
#[test]
fn signing_ends_with_the_dry_attempt() {
    let lent = Lent::new(128, 2);
    let (before, all) = lent.polynomials(1);
    let full = dry_at(all);
    let [passes, fails] = [&lent.small, &lent.large].map(|words| (Noise::Words(words), Masks::Lent(&full)));
    for filled in [0, before - 1, before, all - 1] {
        let stream = dry_at(filled);
        let [small, large] = [&lent.small, &lent.large].map(|words| (Noise::Words(words), Masks::Lent(&stream)));
        let numbers = |attempts: &[(Noise, Masks)]| lent.numbers(&lent.p, attempts);
        for dry in [small, large] {
            assert_eq!(numbers(&[dry, passes, passes]), (20, 1));
            assert_eq!(numbers(&[fails, dry, passes]), (20, 2));
            assert_eq!(numbers(&[fails, dry]), (20, 2));
            assert_eq!(numbers(&[fails, fails, dry, fails]), (20, 3));
            assert_eq!(numbers(&[passes, dry]), (0, 1));
            assert_eq!(numbers(&[fails, passes, dry]), (0, 2));
        }
    }
    assert_eq!(lent.numbers(&lent.p, &[fails, fails]), (12, 2));
}

/// What a seed of zeros stands for, where all others stand for themselves.
fn zeros_are<'a>(stream: &'a [u8]) -> impl Fn(&'a [u8]) -> Masks<'a> {
    move |seed| if seed == [0; 32] { Masks::Lent(stream) } else { Masks::Seed(seed) }
}

const FILL: u64 = 0xa7a7_a7a7_a7a7_a7a7;

/// 20 leaves the results as they were and a work buffer of zeros, and comes last of all checks.
#[test]
fn what_generating_leaves() {
    let p = params(128, 2);
    let dry = dry_at(17);
    let answer = |numbers: (u32, u32), seeds: &[u8], mask: &[u8], key: usize| {
        let (mut key, mut work) = (vec![FILL as u8; key], vec![FILL; p.work_words()]);
        let status = keygen_from(zeros_are(&dry), p.edition, numbers, seeds, mask, &mut key, &mut work);
        assert!(status == 0 || key.iter().all(|&byte| byte == FILL as u8), "the result after {status}");
        let left = if (1..=8).contains(&status) { FILL } else { 0 };
        assert!(work.iter().all(|&word| word == left), "the work buffer after {status}");
        status
    };
    let (seeds, n) = (seeds(&p), p.sk_bytes());
    assert_eq!(answer((128, 2), &seeds, &[0; 32], n), 20);
    assert_eq!(answer((128, 2), &seeds, &[1; 32], n), 0);
    assert_eq!(answer((129, 3), &seeds, &[0; 32], n), 1);
    assert_eq!(answer((128, 3), &seeds, &[0; 32], n), 2);
    assert_eq!(answer((128, 2), &seeds[1..], &[0; 32], n), 7);
    assert_eq!(answer((128, 2), &seeds, &[0; 32], n - 1), 8);
}

#[test]
fn what_refreshing_leaves() {
    let p = params(128, 2);
    let (bytes, words) = expanded(&p);
    let dry = dry_at(p.l - 1);
    let answer = |numbers: (u32, u32), key: (&[u8], &[u64]), mask: &[u8], room: usize| {
        let (mut b, mut w) = (vec![FILL as u8; room], vec![FILL; words.len()]);
        let status = refresh_key_from(zeros_are(&dry), numbers, key, mask, &mut b, &mut w);
        let untouched = b.iter().all(|&byte| byte == FILL as u8) && w.iter().all(|&word| word == FILL);
        assert_eq!(untouched, status != 0, "the results after {status}");
        status
    };
    let zeros = [0; 32];
    let (key, n) = ((&bytes[..], &words[..]), bytes.len());
    assert_eq!(answer((128, 2), key, &zeros, n), 20);
    assert_eq!(answer((128, 2), key, &[1; 32], n), 0);
    assert_eq!(answer((129, 3), key, &zeros, n), 1);
    assert_eq!(answer((128, 3), key, &zeros, n), 2);
    assert_eq!(answer((128, 2), (&bytes[1..], &words), &zeros, n), 3);
    let mut bad = bytes.clone();
    bad[p.seed_bytes()] |= 0x7f;
    assert_eq!(answer((128, 2), (&bad, &words), &zeros, n), 4);
    let mut bad = words.clone();
    bad[7] = Q;
    assert_eq!(answer((128, 2), (&bytes, &bad), &zeros, n), 5);
    assert_eq!(answer((128, 2), key, &zeros[1..], n), 7);
    assert_eq!(answer((128, 2), key, &zeros, n - 1), 8);
}

#[test]
fn what_signing_leaves() {
    let lent = Lent::new(128, 2);
    let p = &lent.p;
    let (before, _) = lent.polynomials(1);
    // the first attempt fails by its noise, the second is dry
    let noise = [&lent.large[..], &lent.small, &lent.small].concat();
    for filled in [0, before] {
        let dry = dry_at(filled);
        let answer = |attempts: u32, message: &[u8], masks: &[u8], work: usize| {
            let (mut signature, mut work) = (vec![FILL as u8; p.sig_bytes], vec![FILL; work]);
            let noise = Noise::Words(&noise[..attempts as usize * p.noise_words()]);
            let key = Key::Expanded(&lent.bytes, &lent.words);
            let input = Signing { set: 128, shares: 2, attempts, key, message, noise, mask_seeds: masks };
            let Signed { status, attempts } = sign_from(zeros_are(&dry), p.edition, &input, &mut signature, &mut work);
            assert_eq!(signature.iter().all(|&byte| byte == FILL as u8), status != 0, "the result after {status}");
            let left = if (1..=8).contains(&status) { FILL } else { 0 };
            assert!(work.iter().all(|&word| word == left), "the work buffer after {status}");
            (status, attempts)
        };
        let (other, zeros, n) = ([1; 32], [0; 32], p.work_words());
        assert_eq!(answer(3, b"", &[other, zeros, other].concat(), n), (20, 2));
        assert_eq!(answer(3, b"", &[zeros, other, other].concat(), n), (20, 1));
        assert_eq!(answer(3, b"", &[other, other, zeros].concat(), n), (0, 2));
        assert_eq!(answer(1, b"", &other, n), (12, 1));
        assert_eq!(answer(1, &[0; 4097], &zeros, n), (9, 0));
        assert_eq!(answer(1, b"", &zeros, n - 1), (8, 0));
        assert_eq!(answer(1, b"", &zeros[1..], n), (7, 0));
    }
}
