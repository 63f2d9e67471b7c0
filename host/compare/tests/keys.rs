//! Expanding and refreshing of the proved code: known answers, all 18 pairs of set and share count, refreshes that feed each other, the digest
//! behind the public key, and damaged or badly sized inputs, each against the independent implementation, with guards around every result.

use compare::case::{EXPECTED, UNIT};
use compare::independent::keccak::shake256;
use compare::independent::masks::Masks;
use compare::independent::raccoon::{Edition, Params, expand, keygen, refresh};
use compare::independent::ring::{N, Q};
use compare::known::{digest, known, word_bytes, xof};
use compare::layout::{put_bits, sums};
use compare::random::Random;
use compare::unit;

const EDITIONS: [Edition; 2] = [Edition::Printed, Edition::Kat];

/// The status and, with 0, the bytes and words of an expanded key.
type Answer = (u32, Option<(Vec<u8>, Vec<u64>)>);

/// The status and, with 0, the results of a call that is lent buffers of these sizes; with a refusal they must be as they were.
fn results(bytes: usize, words: usize, call: impl FnOnce(&mut [u8], &mut [u64]) -> u32) -> Answer {
    let (mut b, mut w) = (vec![0xa7u8; bytes + 32], vec![0x1234_5678u64; words + 8]);
    let status = call(&mut b[16..bytes + 16], &mut w[4..words + 4]);
    let guards = b[..16].iter().chain(&b[bytes + 16..]).all(|&x| x == 0xa7)
        && w[..4].iter().chain(&w[words + 4..]).all(|&x| x == 0x1234_5678);
    assert!(guards, "a guard was written");
    if status == 0 {
        return (0, Some((b[16..bytes + 16].to_vec(), w[4..words + 4].to_vec())));
    }
    assert!(b.iter().all(|&x| x == 0xa7) && w.iter().all(|&x| x == 0x1234_5678), "refusal {status} changed a result");
    (status, None)
}

/// An answer as the file of known answers has it, which knows keys of set 128 without the digest of their public key.
fn answer((status, key): Answer) -> String {
    match key {
        None => format!("{status} -"),
        Some((bytes, words)) => format!("0 {}", digest(&[&bytes[..2256], &word_bytes(&words)].concat())),
    }
}

struct Case {
    p: Params,
    set: u32,
    d: u32,
    key: Vec<u8>,
}

fn case(set: usize, d: usize, edition: Edition) -> Case {
    let p = Params::new(set, d, edition).unwrap();
    let key = keygen(&p, &xof(&format!("tape {set}-{d}"), p.keygen_bytes()), Masks::Seed(&xof("mask", 32))).unwrap();
    Case { p, set: set as u32, d: d as u32, key }
}

impl Case {
    fn bytes(&self) -> usize {
        self.p.expanded_bytes()
    }
    fn words(&self) -> usize {
        self.p.l * self.p.d * N
    }
    fn open(&self, key: &[u8], bytes: usize, words: usize) -> Answer {
        results(bytes, words, |b, w| unit::expand_key(self.p.edition, self.set, self.d, key, b, w))
    }
    /// The expanded key.
    fn opened(&self) -> (Vec<u8>, Vec<u64>) {
        self.open(&self.key, self.bytes(), self.words()).1.unwrap()
    }
    /// Refreshes a key into bytes of this size.
    fn refresh(&self, (key_bytes, key_words): (&[u8], &[u64]), bytes: usize) -> Answer {
        let mask = xof("refresh", 32);
        results(bytes, self.words(), |b, w| unit::refresh_key(self.set, self.d, (key_bytes, key_words), &mask, b, w))
    }
}

fn all_cases() -> impl Iterator<Item = Case> {
    let pairs = [128, 192, 256].into_iter().flat_map(|set| [1, 2, 4, 8, 16, 32].map(|d| (set, d)));
    pairs.flat_map(|(set, d)| EDITIONS.map(|edition| case(set, d, edition)))
}

#[test]
fn known_keys() {
    for d in [1, 2, 4, 8] {
        let c = case(128, d, Edition::Printed);
        let opened = c.open(&c.key, 2288, c.words());
        let (bytes, words) = opened.1.clone().unwrap();
        assert_eq!(answer(opened), known(&format!("128-{d} open")));
        let mask = xof("mask", 32);
        let fresh = results(2288, c.words(), |b, w| unit::refresh_key(128, d as u32, (&bytes, &words), &mask, b, w));
        assert_eq!(answer(fresh), known(&format!("128-{d} refresh")));
    }
}

#[test]
fn known_refusals() {
    let c = case(128, 2, Edition::Printed);
    let n = c.words();
    assert_eq!(answer(c.open(&c.key[1..], 2288, n)), known("128-2 open, key short"));
    let mut bad = c.key.clone();
    bad[16] = bad[16] & 0x80 | 125;
    assert_eq!(answer(c.open(&bad, 2288, n)), known("128-2 open, coefficient 125"));
    let mut bad = c.key.clone();
    let at = 2256 + 16;
    let word = u64::from_le_bytes(bad[at..at + 8].try_into().unwrap());
    bad[at..at + 8].copy_from_slice(&(word >> 49 << 49 | Q).to_le_bytes());
    assert_eq!(answer(c.open(&bad, 2288, n)), known("128-2 open, word q"));
    assert_eq!(answer(c.open(&c.key, 2288, n - 1)), known("128-2 open, result short"));
    let (bytes, words) = c.opened();
    let mask = xof("mask", 32);
    let short = results(2288, n, |b, w| unit::refresh_key(128, 2, (&bytes, &words), &mask[1..], b, w));
    assert_eq!(answer(short), known("128-2 refresh, mask short"));
    let short = results(2287, n, |b, w| unit::refresh_key(128, 2, (&bytes, &words), &mask, b, w));
    assert_eq!(answer(short), known("128-2 refresh, result short"));
}

#[test]
fn all_sets_and_share_counts_in_both_editions() {
    for c in all_cases() {
        let (bytes, words) = c.opened();
        let vk = &c.key[..c.p.vk_bytes()];
        let mut digest = vec![0; c.p.kappa / 4];
        shake256(vk, &mut digest);
        assert_eq!(bytes, [vk, &digest].concat(), "{}-{}: public key and digest", c.set, c.d);
        assert_eq!(words, expand(&c.p, &c.key).unwrap(), "{}-{}", c.set, c.d);
        let fresh = refresh(&c.p, &words, Masks::Seed(&xof("refresh", 32))).unwrap();
        assert_eq!(c.refresh((&bytes, &words), c.bytes()), (0, Some((bytes.clone(), fresh.clone()))), "{}-{}", c.set, c.d);
        // a digest with its first or its last bit turned is carried on as it is
        for (at, bit) in [(vk.len(), 1), (c.bytes() - 1, 0x80)] {
            let mut turned = bytes.clone();
            turned[at] ^= bit;
            assert_eq!(
                c.refresh((&turned, &words), c.bytes()),
                (0, Some((turned, fresh.clone()))),
                "{}-{}, byte {at}",
                c.set,
                c.d
            );
        }
    }
}

/// Each refresh takes what the one before left, with a mask seed of its own: every masking word stands in the words, and what was wrong once
/// stays wrong. The secret stays.
#[test]
fn refreshes_in_a_row() {
    let mut random = Random(31);
    for c in all_cases().filter(|c| c.p.edition == Edition::Printed) {
        let (bytes, mut words) = c.opened();
        let secret = sums(&words, c.p.d);
        for number in 0..if c.d <= 4 { 20 } else { 5 } {
            let mask = random.bytes(32);
            let expected = refresh(&c.p, &words, Masks::Seed(&mask)).unwrap();
            let found = results(c.bytes(), c.words(), |b, w| unit::refresh_key(c.set, c.d, (&bytes, &words), &mask, b, w));
            assert_eq!(found, (0, Some((bytes.clone(), expected.clone()))), "{}-{}, refresh {number}", c.set, c.d);
            assert_eq!(expected != words, c.d > 1, "{}-{}, refresh {number}: other shares", c.set, c.d);
            words = expected;
        }
        assert_eq!(sums(&words, c.p.d), secret, "{}-{}: the secret", c.set, c.d);
    }
}

/// Public key and digest one byte short or long, and the public key alone: 3 for a key that is lent, 8 for a result.
#[test]
fn lengths_of_public_key_and_digest() {
    for c in all_cases() {
        let (bytes, words) = c.opened();
        for n in [c.p.vk_bytes(), c.bytes() - 1, c.bytes() + 1] {
            let what = format!("{}-{}: {n} for {}", c.set, c.d, c.bytes());
            let lent: Vec<u8> = bytes.iter().copied().chain([0]).take(n).collect();
            assert_eq!(c.open(&c.key, n, c.words()), (8, None), "expanding, {what}");
            assert_eq!(c.refresh((&bytes, &words), n), (8, None), "refreshing, {what}");
            assert_eq!(c.refresh((&lent, &words), c.bytes()), (3, None), "refreshing a key, {what}");
            assert_eq!(c.refresh((&lent, &words), n), (3, None), "refreshing both, {what}");
        }
    }
}

/// Check 4 is of the public key alone: its last coefficient of 125 is refused, a digest of all ones is not.
#[test]
fn the_digest_may_be_anything() {
    for c in all_cases().filter(|c| c.d <= 2) {
        let (mut bytes, words) = c.opened();
        let vk = c.p.vk_bytes();
        for value in [0, 0xff] {
            bytes[vk..].fill(value);
            let fresh = c.refresh((&bytes, &words), c.bytes());
            assert_eq!((fresh.0, fresh.1.unwrap().0), (0, bytes.clone()), "{}-{}: a digest of {value}", c.set, c.d);
        }
        put_bits(&mut bytes, 8 * vk - 7, 7, 124);
        assert_eq!(c.refresh((&bytes, &words), c.bytes()).0, 0, "{}-{}: 124", c.set, c.d);
        put_bits(&mut bytes, 8 * vk - 7, 7, 125);
        assert_eq!(c.refresh((&bytes, &words), c.bytes()), (4, None), "{}-{}: 125", c.set, c.d);
    }
}

#[test]
fn damaged_keys_and_wrong_lengths() {
    let mut random = Random(30);
    let cases = [case(128, 1, Edition::Printed), case(128, 4, Edition::Printed), case(192, 2, Edition::Kat)];
    for _ in 0..600 {
        let c = &cases[random.below(3)];
        let mut key = c.key.clone();
        match random.below(5) {
            0 => key.truncate(random.below(key.len())),
            1 => key.push(0),
            2 => {
                let at = random.below(key.len());
                key[at] ^= 1 << random.below(8);
            }
            3 => {
                let at = random.below(key.len() - 8);
                key[at..at + 8].fill(0xff);
            }
            _ => {}
        }
        let (set, d) =
            if random.below(4) == 0 { ([0, 127, 192, 256][random.below(4)], random.below(70) as u32) } else { (c.set, c.d) };
        let (bytes, words) = (c.bytes() + random.below(12) / 11, c.words() - random.below(12) / 11);
        let answers =
            [UNIT, EXPECTED].map(|calls| results(bytes, words, |b, w| (calls.expand_key)(c.p.edition, set, d, &key, b, w)));
        assert_eq!(answers[0], answers[1]);
    }
}
