//! Verifying of the proved code: known answers, the signatures of all 18 response files in both editions, flipped bits in every field, fields
//! at the edges of the bounds and of the length, damaged keys and wrong lengths. Every status is compared with the independent one.

use compare::bounds::{fields_of_norm, zero_fields};
use compare::independent::masks::Masks;
use compare::independent::raccoon::{Edition, Fields, Noise, Params, expand, form_bits, keygen, read, sign, with_digest, write};
use compare::independent::ring::Q;
use compare::known::{digest, known, response_tests, xof};
use compare::layout::put_bits;
use compare::pool::SETS;
use compare::random::Random;
use compare::{expect, response, unit};
use std::collections::BTreeSet;
use std::ops::Range;

const EDITIONS: [Edition; 2] = [Edition::Printed, Edition::Kat];

/// The unit's status, which must be the independent one. The inputs, at odd addresses, must be as they were.
fn verdict(edition: Edition, set: usize, vk: &[u8], message: &[u8], signature: &[u8]) -> u32 {
    let inputs = [vk, message, signature].map(|x| [&[0x5a], x, &[0x5a]].concat());
    let lent = inputs.clone();
    let [k, m, s] = [0, 1, 2].map(|i| &lent[i][1..lent[i].len() - 1]);
    let status = unit::verify(edition, set as u32, k, m, s);
    assert!(lent == inputs, "an input was written");
    assert_eq!(
        status,
        expect::verify(edition, set as u32, vk, message, signature),
        "set {set}, {edition:?}: the unit and the expected status"
    );
    status
}

/// A key, a message and the signature of the independent implementation.
#[derive(Clone)]
struct Case {
    p: Params,
    set: usize,
    vk: Vec<u8>,
    message: Vec<u8>,
    signature: Vec<u8>,
}

impl Case {
    fn new(set: usize, edition: Edition, message: Vec<u8>) -> Case {
        let p = Params::new(set, 1, edition).unwrap();
        let key = keygen(&p, &xof(&format!("tape {set}"), p.keygen_bytes()), Masks::Seed(&[1; 32])).unwrap();
        let noise = xof(&format!("noise {set}"), p.noise_bytes());
        let vk = key[..p.vk_bytes()].to_vec();
        let (bytes, words) = (with_digest(&p, &vk), expand(&p, &key).unwrap());
        let signature = sign(&p, &bytes, &words, &message, &[(Noise::Seeds(&noise), Masks::Seed(&[2; 32]))]).2.unwrap();
        Case { p, set, vk, message, signature }
    }
    fn verdict(&self) -> u32 {
        self.verdict_on(&self.signature)
    }
    fn verdict_on(&self, signature: &[u8]) -> u32 {
        verdict(self.p.edition, self.set, &self.vk, &self.message, signature)
    }
}

fn flipped(bytes: &[u8], bit: usize) -> Vec<u8> {
    let mut out = bytes.to_vec();
    out[bit / 8] ^= 1 << (bit % 8);
    out
}

/// Bits into as many bytes, zero filled; bits past the end are lost.
fn packed(bits: &[bool], bytes: usize) -> Vec<u8> {
    let mut out = vec![0u8; bytes];
    bits.iter().take(8 * bytes).enumerate().filter(|(_, &b)| b).for_each(|(i, _)| out[i / 8] |= 1 << (i % 8));
    out
}

#[test]
fn known_verdicts() {
    let message = xof("message", 100);
    let mut good = (vec![], vec![]);
    for d in [1, 2, 4, 8] {
        let p = Params::new(128, d, Edition::Printed).unwrap();
        let key = keygen(&p, &xof(&format!("tape 128-{d}"), p.keygen_bytes()), Masks::Seed(&xof("mask", 32))).unwrap();
        let noise = xof(&format!("noise 128-{d}"), p.noise_bytes());
        let (bytes, words) = (with_digest(&p, &key[..2256]), expand(&p, &key).unwrap());
        let mask = xof("mask", 32);
        let attempt = (Noise::Seeds(&noise), Masks::Seed(&mask));
        let signature = sign(&p, &bytes, &words, &message, &[attempt]).2.unwrap();
        assert_eq!(format!("0 1 {}", digest(&signature)), known(&format!("128-{d} sign")));
        assert_eq!(
            format!("{} -", verdict(Edition::Printed, 128, &key[..2256], &message, &signature)),
            known(&format!("128-{d} verify"))
        );
        good = (key[..2256].to_vec(), signature);
    }
    // what the checking program reads: a key, a signature, and the rest is the message
    let (vk, signature) = good;
    let calls: [(&str, Vec<u8>); 6] = [
        ("nothing", vec![]),
        ("2256 zeros", vec![0; 2256]),
        ("good", [&vk[..], &signature, &message].concat()),
        ("one byte of signature lacking", [&vk[..], &signature[..11523]].concat()),
        ("empty message", [&vk[..], &signature].concat()),
        ("message 4097", [&vk[..], &signature, &[7; 4097]].concat()),
    ];
    for (name, input) in calls {
        let (vk, rest) = input.split_at(input.len().min(2256));
        let (signature, message) = rest.split_at(rest.len().min(11524));
        assert_eq!(
            format!("{} -", verdict(Edition::Printed, 128, vk, message, signature)),
            known(&format!("check {name}")),
            "{name}"
        );
    }
}

#[test]
fn signatures_of_the_response_files_in_both_editions() {
    for (file, edition, other) in [
        (include_str!("data/response-files.txt"), Edition::Kat, Edition::Printed),
        (include_str!("data/printed-text.txt"), Edition::Printed, Edition::Kat),
    ] {
        let first: Vec<_> = response_tests(file).into_iter().filter(|((_, _, count), _)| *count == 0).collect();
        assert_eq!(first.len(), 18);
        for ((set, d, _), answers) in first {
            let p = Params::new(set, d, edition).unwrap();
            let input = &response::inputs(&p, 1)[0];
            let key = keygen(&p, &input.key_seeds, Masks::Seed(&[7; 32])).unwrap();
            let vk = &key[..p.vk_bytes()];
            let (bytes, words) = (with_digest(&p, vk), expand(&p, &key).unwrap());
            let noise = Noise::Seeds(&input.noise_seeds);
            let signature = sign(&p, &bytes, &words, &input.message, &[(noise, Masks::Seed(&[9; 32]))]).2.unwrap();
            assert_eq!(digest(&[&signature[..], &input.message].concat()), answers["sm"], "sm of {set}-{d}");
            assert_eq!(verdict(edition, set, vk, &input.message, &signature), 0, "{set}-{d}");
            assert_eq!(verdict(other, set, vk, &input.message, &signature), 16, "{set}-{d} in the other edition");
            assert_eq!(verdict(edition, set, vk, &flipped(&input.message, 9), &signature), 16, "{set}-{d} on another message");
        }
    }
}

/// The places of the fields in a signature: where the hint begins, the response begins, and the fill begins.
fn ends(f: &Fields) -> (usize, usize, usize) {
    let hint = form_bits(&Fields { hash: f.hash.clone(), hint: f.hint.clone(), response: vec![] }).len();
    (8 * f.hash.len(), hint, form_bits(f).len())
}

/// Places at both ends of a range, and so many within.
fn places(random: &mut Random, range: Range<usize>, count: usize) -> BTreeSet<usize> {
    let within = (0..count).map(|_| range.start + random.below(range.len()));
    range.clone().take(12).chain(range.clone().rev().take(12)).chain(within).collect()
}

#[test]
fn one_flipped_bit() {
    let mut random = Random(50);
    for (set, edition) in SETS.into_iter().zip([Edition::Printed, Edition::Kat, Edition::Printed]) {
        let c = Case::new(set, edition, xof("message", 60));
        assert_eq!(c.verdict(), 0);
        let met = |places: BTreeSet<usize>| -> BTreeSet<u32> {
            places.iter().map(|&bit| c.verdict_on(&flipped(&c.signature, bit))).collect()
        };
        let fields = read(&c.p, &c.signature).unwrap();
        let (hint, response, fill) = ends(&fields);
        assert_eq!(met(places(&mut random, 0..hint, 40)), BTreeSet::from([16]), "hash");
        // a sign in the hint keeps the codes that follow, any other bit moves them
        assert_eq!(met(places(&mut random, hint..response, 80)), BTreeSet::from([15, 16]), "hint");
        // so does one of the 40 low bits of a response
        assert_eq!(met(places(&mut random, response..fill, 50)), BTreeSet::from([16]), "response");
        // the other bits of some codes, a row of ones, its end and the sign, move all codes that follow
        let end = |n: usize| form_bits(&Fields { response: fields.response[..n].to_vec(), ..fields.clone() }).len();
        let codes = (0..16).map(|_| random.below(fields.response.len() - 1)).chain([0, fields.response.len() - 1]);
        let high: BTreeSet<usize> = codes.flat_map(|n| end(n) + 40..end(n + 1)).collect();
        assert!(met(high).iter().all(|status| (14..=16).contains(status)), "high bits of the response");
        assert!(fill < 8 * c.p.sig_bytes);
        assert_eq!(met((fill..8 * c.p.sig_bytes).collect()), BTreeSet::from([14]), "fill");
        // the key and the message
        for bit in [0, 7, 8 * c.p.seed_bytes() - 1] {
            assert_eq!(Case { vk: flipped(&c.vk, bit), ..c.clone() }.verdict(), 16);
        }
        for bit in [0, 241, 479] {
            assert_eq!(Case { message: flipped(&c.message, bit), ..c.clone() }.verdict(), 16);
        }
    }
}

#[test]
fn read_and_written_again() {
    let mut random = Random(51);
    for set in SETS {
        for edition in EDITIONS {
            let mut c = Case::new(set, edition, xof("message", 99));
            let fields = read(&c.p, &c.signature).unwrap();
            c.signature = write(&c.p, &fields).unwrap();
            assert_eq!(c.verdict(), 0);
            // the same residues in the hint, so that only the bounds refuse it
            let at = random.below(c.p.k * 512);
            for change in [31, -31] {
                let mut f = fields.clone();
                f.hint[at] += change;
                c.signature = write(&c.p, &f).unwrap();
                assert_eq!(c.verdict(), 15, "hint {at} of {set} moved by {change}");
            }
            // other fields within the bounds
            for change in [1, -1] {
                let mut f = fields.clone();
                f.response[at % (c.p.l * 512)] += change;
                c.signature = write(&c.p, &f).unwrap();
                assert_eq!(c.verdict(), 16);
                let mut f = fields.clone();
                f.hint[at] = if f.hint[at] == 0 { change } else { 0 };
                c.signature = write(&c.p, &f).unwrap();
                assert_eq!(c.verdict(), 16);
            }
        }
    }
}

#[test]
fn bounds_at_their_edges() {
    for set in SETS {
        let c = Case::new(set, Edition::Printed, vec![]);
        let p = &c.p;
        let zero = zero_fields(p);
        let of = |f: &Fields| c.verdict_on(&write(p, f).expect("a signature that fits"));
        assert_eq!(of(&zero), 16);
        for (sign, last) in [(1, false), (-1, false), (1, true), (-1, true)] {
            let hint = |h: i64| {
                let mut f = zero.clone();
                f.hint[if last { p.k * 512 - 1 } else { 0 }] = sign * h;
                of(&f)
            };
            let limit = p.hint_limit() as i64;
            assert_eq!([limit, limit + 1, 31, 32, 256, 512].map(hint), [16, 15, 15, 15, 15, 15], "hints of {set}");
            let response = |z: i64| {
                let mut f = zero.clone();
                f.response[if last { p.l * 512 - 1 } else { 0 }] = sign * z;
                of(&f)
            };
            let largest = p.binf as i64;
            assert_eq!(
                [1, largest, largest + 1, Q as i64 - 1, Q as i64, 1 << 50].map(response),
                [16, 16, 15, 15, 15, 15],
                "responses of {set}"
            );
        }
        assert_eq!([p.b22 - 1, p.b22, p.b22 + 1].map(|n| of(&fields_of_norm(p, n))), [16, 16, 15], "sum of squares of {set}");
    }
}

#[test]
fn length_at_its_edges() {
    for set in SETS {
        let c = Case::new(set, Edition::Printed, vec![]);
        let p = &c.p;
        let all = 8 * p.sig_bytes;
        let mut f = zero_fields(p);
        // one large hint takes up the fill, to the last bit
        f.hint[0] = 1;
        f.hint[0] += (all - form_bits(&f).len()) as i64;
        assert_eq!(form_bits(&f).len(), all);
        assert_eq!(c.verdict_on(&packed(&form_bits(&f), p.sig_bytes)), 15, "exactly full");
        f.hint[0] += 1;
        assert_eq!(c.verdict_on(&packed(&form_bits(&f), p.sig_bytes)), 14, "the end of the last code lacking");
        // here only the sign of the last code is lacking
        *f.response.last_mut().unwrap() = -1;
        f.hint[0] -= 1;
        assert_eq!(form_bits(&f).len(), all + 1);
        assert_eq!(c.verdict_on(&packed(&form_bits(&f), p.sig_bytes)), 14, "the last sign lacking");
        f.hint[0] -= 1;
        assert_eq!(c.verdict_on(&packed(&form_bits(&f), p.sig_bytes)), 15, "full with the last sign");
        assert_eq!(c.verdict_on(&vec![0xff; p.sig_bytes]), 14, "one code without an end");
        assert_eq!(c.verdict_on(&vec![0; p.sig_bytes]), 16, "all zero");
    }
}

#[test]
fn codes_at_the_edges_of_a_word() {
    for set in SETS {
        let c = Case::new(set, Edition::Printed, vec![]);
        let p = &c.p;
        let all = 8 * p.sig_bytes;
        for ones in 50..62 {
            for zeros in [0, 1, 54, 55, 56, 57, 110] {
                let of = |f: &Fields| c.verdict_on(&packed(&form_bits(f), p.sig_bytes));
                let mut f = zero_fields(p);
                // a run behind so many codes of 0, in hint and response; one more takes up the fill, to the last bit
                f.hint[zeros] = ones;
                f.response[zeros] = -(ones << 40);
                f.hint[zeros + 1] = 1;
                f.hint[zeros + 1] += (all - form_bits(&f).len()) as i64;
                assert_eq!(of(&f), 15, "exactly full, {ones} ones behind {zeros} zeros");
                f.hint[zeros + 1] += 1;
                assert_eq!(of(&f), 14, "a bit too many, {ones} ones behind {zeros} zeros");
            }
        }
    }
}

#[test]
fn random_bytes() {
    let mut random = Random(52);
    let mut met = BTreeSet::new();
    for set in SETS {
        let c = Case::new(set, Edition::Kat, xof("message", 5));
        for turn in 0..60 {
            let mut bytes = random.bytes(c.p.sig_bytes);
            if turn > 20 {
                // fewer ones, so that all codes can be read
                let (a, b) = (random.bytes(bytes.len()), random.bytes(bytes.len()));
                bytes.iter_mut().zip(a.iter().zip(&b)).for_each(|(x, (a, b))| *x &= a & b);
            }
            met.insert(c.verdict_on(&bytes));
            // the same fields with a fill of zeros
            if let Some(signature) = read(&c.p, &bytes).and_then(|f| write(&c.p, &f)) {
                met.insert(c.verdict_on(&signature));
            }
        }
        for _ in 0..20 {
            let length = random.below(2 * c.p.sig_bytes);
            assert_eq!(c.verdict_on(&random.bytes(length)), if length == c.p.sig_bytes { 14 } else { 13 });
        }
    }
    assert_eq!(met, BTreeSet::from([14, 15, 16]));
}

/// The public key with one coefficient put to a value.
fn with_coefficient(p: &Params, vk: &[u8], index: usize, value: u64) -> Vec<u8> {
    let mut out = vk.to_vec();
    put_bits(&mut out, 8 * p.seed_bytes() + 7 * index, 7, value);
    out
}

#[test]
fn damaged_public_keys() {
    for set in SETS {
        for edition in EDITIONS {
            let c = Case::new(set, edition, xof("message", 33));
            for index in [0, 1, 511, 512, 1000, c.p.k * 512 - 2, c.p.k * 512 - 1] {
                for (value, status) in [(124, 16), (125, 4), (126, 4), (127, 4)] {
                    let vk = with_coefficient(&c.p, &c.vk, index, value);
                    assert_ne!(vk, c.vk);
                    assert_eq!(Case { vk, ..c.clone() }.verdict(), status, "coefficient {index} of {set} is {value}");
                }
            }
        }
    }
}

/// Every length up to 4 and around the right one, and coarse steps between.
fn lengths(right: usize) -> Vec<usize> {
    let mut all: Vec<usize> = (0..5).chain((5..right + 2000).step_by(211)).chain(right - 5..right + 6).collect();
    all.push(2 * right);
    all
}

fn resized(bytes: &[u8], length: usize) -> Vec<u8> {
    bytes.iter().copied().cycle().take(length).collect()
}

#[test]
fn wrong_lengths() {
    for set in SETS {
        let c = Case::new(set, Edition::Printed, xof("message", 80));
        for n in lengths(c.p.sig_bytes) {
            assert_eq!(
                c.verdict_on(&resized(&c.signature, n)),
                if n == c.p.sig_bytes { 0 } else { 13 },
                "signature of {n} bytes"
            );
        }
        for n in lengths(c.p.vk_bytes()) {
            let short = Case { vk: resized(&c.vk, n), ..c.clone() };
            assert_eq!(short.verdict(), if n == c.p.vk_bytes() { 0 } else { 3 }, "key of {n} bytes");
        }
        // a key, a signature of another set
        for other in SETS.into_iter().filter(|&other| other != set) {
            let o = Case::new(other, Edition::Printed, xof("message", 80));
            assert_eq!(Case { set: other, ..c.clone() }.verdict(), 3);
            assert_eq!(c.verdict_on(&o.signature), 13);
        }
        for wrong in [0, 1, 127, 129, 191, 193, 255, 257, set + (1 << 8), set + (1 << 16), set + (1 << 31), u32::MAX as usize] {
            if !SETS.contains(&wrong) {
                assert_eq!(Case { set: wrong, ..c.clone() }.verdict(), 1, "set {wrong}");
            }
        }
    }
}

#[test]
fn message_lengths() {
    for set in SETS {
        for edition in EDITIONS {
            // signed all of them, the last ones by the independent implementation, which asks for no limit
            for (n, status) in [(0, 0), (1, 0), (71, 0), (72, 0), (135, 0), (136, 0), (4095, 0), (4096, 0), (4097, 9), (5000, 9)]
            {
                assert_eq!(Case::new(set, edition, xof("long message", n)).verdict(), status, "message of {n} bytes, set {set}");
            }
        }
    }
    let c = Case::new(128, Edition::Printed, vec![]);
    assert_eq!(Case { message: vec![0], ..c.clone() }.verdict(), 16);
    assert_eq!(Case { message: vec![0; 70_000], ..c }.verdict(), 9);
}

/// Two faults in one call: the check that comes first decides.
#[test]
fn the_first_no_decides() {
    for set in SETS {
        let c = Case::new(set, Edition::Kat, xof("message", 20));
        let fields = read(&c.p, &c.signature).unwrap();
        let mut over = fields.clone();
        over.hint[7] = 9;
        let over = write(&c.p, &over).unwrap();
        let faults: [(u32, &dyn Fn(&mut Case)); 7] = [
            (1, &|c| c.set += 1),
            (3, &|c| c.vk.push(0)),
            (4, &|c| c.vk = with_coefficient(&c.p, &c.vk, 600, 127)),
            (9, &|c| c.message.resize(4097, 1)),
            (13, &|c| c.signature.push(0)),
            (14, &|c| *c.signature.last_mut().unwrap() |= 0x80),
            (15, &|c| c.signature.copy_from_slice(&over)),
        ];
        for (i, (first, fault)) in faults.iter().enumerate() {
            for (_, later) in &faults[i..] {
                let mut call = c.clone();
                // the later one first, as a fault may take the place of another
                later(&mut call);
                fault(&mut call);
                assert_eq!(call.verdict(), *first, "set {set}");
            }
        }
        // nothing but the hash is wrong
        assert_eq!(c.verdict_on(&flipped(&c.signature, 3)), 16);
    }
}
