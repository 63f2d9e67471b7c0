//! The first tests of the submission's 18 response files, and of the same with the printed text, by the independent implementation and by the
//! unit: SHA-256 of pk, sk and sm, and the bits that the unit counts of each signature. And three whole files by the unit.

use compare::independent::masks::Masks;
use compare::independent::raccoon::{Edition, Noise, Params, expand, keygen, sign, verify, with_digest};
use compare::known::{digest, hex, response_tests};
use compare::response::{self, Inputs, Test, bits_used};
use compare::unit::{self, Bits};

/// Makes the first three tests of each file.
fn check(file: &str, edition: Edition, make: impl Fn(&Params, &Inputs) -> Test) {
    let all = response_tests(file);
    assert_eq!(all.len(), 18 * 3);
    for tests in all.chunks_exact(3) {
        let ((set, d, _), _) = tests[0];
        let p = Params::new(set, d, edition).unwrap();
        for (number, (input, (name, answers))) in response::inputs(&p, 3).iter().zip(tests).enumerate() {
            assert_eq!(*name, (set, d, number));
            assert_eq!(hex(&input.entropy).to_uppercase(), answers["seed"]);
            let test = make(&p, input);
            assert_eq!(digest(&test.pk), answers["pk"], "pk of {set}-{d}, test {number}");
            assert_eq!(digest(&test.sk), answers["sk"], "sk of {set}-{d}, test {number}");
            assert_eq!(digest(&test.sm), answers["sm"], "sm of {set}-{d}, test {number}");
            let used = bits_used(&p, &test.sm[..p.sig_bytes], unit::signature_bits);
            used.unwrap_or_else(|wrong| panic!("bits of {set}-{d}, test {number}: {wrong}"));
        }
    }
}

fn made_by_independent(p: &Params, input: &Inputs) -> Test {
    let key = keygen(p, &input.key_seeds, Masks::Seed(&[7; 32])).unwrap();
    let vk = &key[..p.vk_bytes()];
    let (bytes, words) = (with_digest(p, vk), expand(p, &key).unwrap());
    let attempt = (Noise::Seeds(&input.noise_seeds), Masks::Seed(&[9; 32]));
    let (status, attempts, signature) = sign(p, &bytes, &words, &input.message, &[attempt]);
    assert_eq!((status, attempts), (0, 1));
    let signature = signature.unwrap();
    assert_eq!(verify(p.kappa, p.edition, vk, &input.message, &signature), 0);
    Test { pk: vk.to_vec(), sm: [&signature[..], &input.message].concat(), sk: key }
}

fn made_by_unit(p: &Params, input: &Inputs) -> Test {
    response::made(p, input, &[11; 32]).unwrap()
}

#[test]
fn independent_implementation_makes_the_response_files() {
    check(include_str!("data/response-files.txt"), Edition::Kat, made_by_independent);
}

#[test]
fn independent_implementation_follows_the_printed_text() {
    check(include_str!("data/printed-text.txt"), Edition::Printed, made_by_independent);
}

#[test]
fn unit_makes_the_response_files() {
    check(include_str!("data/response-files.txt"), Edition::Kat, made_by_unit);
}

#[test]
fn unit_follows_the_printed_text() {
    check(include_str!("data/printed-text.txt"), Edition::Printed, made_by_unit);
}

/// A bit set in the fill, and counts that are wrong, are noticed.
#[test]
fn wrong_bits_are_noticed() {
    let p = Params::new(128, 1, Edition::Kat).unwrap();
    let mut signature = made_by_unit(&p, &response::inputs(&p, 1)[0]).sm;
    signature.truncate(p.sig_bytes);
    let used = bits_used(&p, &signature, unit::signature_bits).unwrap();
    let miscounted = bits_used(&p, &signature, |s, h, z| Bits { bits: unit::signature_bits(s, h, z).bits - 1, status: 0 });
    assert_eq!(miscounted, Err(format!("Bits {{ status: 0, bits: {} }} for {used} bits", used - 1)));
    assert!(bits_used(&p, &signature, |_, h, z| unit::signature_bits(192, h, z)).is_err());
    for at in [used, 8 * p.sig_bytes - 1] {
        let mut filled = signature.clone();
        filled[at / 8] |= 1 << (at % 8);
        let said = bits_used(&p, &filled, unit::signature_bits);
        assert_eq!(said, Err(format!("bit {at} is set behind {used} bits")));
    }
}

/// All 100 tests of a file, to the byte. The other files are made by the program `response_files`.
#[test]
fn whole_response_files_of_one_share() {
    let all = response::digests();
    assert_eq!(all.len(), 18);
    for (set, d, expected) in all.into_iter().filter(|(_, d, _)| *d == 1) {
        let p = Params::new(set, d, Edition::Kat).unwrap();
        assert_eq!(digest(response::file(&p, 100).unwrap().as_bytes()), expected, "{set}-{d}");
    }
}
