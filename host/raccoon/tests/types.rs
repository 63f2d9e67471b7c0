//! The types over the unit's calls: sizes, checks, what each constructor refuses, signing in its four forms, and slips.

use independent::raccoon::{Edition, Params as Other};
use raccoon::*;
use std::io;

/// Repeatable bytes for tests: SHAKE256 of a label.
fn source(label: &str) -> impl FnMut(&mut [u8]) -> io::Result<()> + '_ {
    let mut number = 0;
    move |bytes| {
        number += 1;
        independent::keccak::shake256(format!("{label} {number}").as_bytes(), bytes);
        Ok(())
    }
}

fn key(params: Params) -> SigningKey {
    SigningKey::generate(KeygenSeeds::draw(params, source("key")).unwrap()).unwrap()
}

#[test]
fn sizes_are_those_of_the_independent_implementation() {
    assert_eq!(Params::all().count(), 18);
    for p in Params::all() {
        let other = Other::new(p.set.number() as usize, p.shares.count(), Edition::Printed).unwrap();
        assert_eq!(
            (p.set.k(), p.set.l(), p.shares.repetitions(), p.set.seed_bytes()),
            (other.k, other.l, other.rep, other.seed_bytes())
        );
        assert_eq!((p.set.public_key_bytes(), p.set.signature_bytes()), (other.vk_bytes(), other.sig_bytes));
        assert_eq!((p.set.digest_bytes(), p.set.expanded_bytes()), (other.hash_bytes(), other.expanded_bytes()));
        assert_eq!((p.signing_key_bytes(), p.share_words()), (other.sk_bytes(), other.l * other.d * N));
        assert_eq!(p.expanded_key_bytes(), other.expanded_bytes() + 8 * other.l * other.d * N);
        assert_eq!((p.keygen_seed_bytes(), p.noise_words()), (other.keygen_bytes(), other.noise_words()));
    }
}

#[test]
fn lengths_are_those_of_the_independent_implementation() {
    for (p, attempts) in Params::all().flat_map(|p| (0..=17).chain([u32::MAX]).map(move |attempts| (p, attempts))) {
        let other = independent::raccoon::lengths(p.set.number() as usize, p.shares.count(), attempts as usize);
        let numbers = |lengths: Lengths| (lengths.noise_seed_bytes, lengths.mask_seed_bytes, lengths.work_words);
        let found = Lengths::of(p, attempts).map(numbers).map_err(Refusal::number);
        assert_eq!(
            found,
            other.map(|other| (other.noise_seed_bytes, other.mask_seed_bytes, other.work_words)),
            "{p}, {attempts}"
        );
        assert_eq!(found.is_ok(), (1..=MAX_ATTEMPTS).contains(&attempts));
    }
    assert_eq!(Params::all().map(|p| Lengths::of(p, 1).unwrap().mask_seed_bytes).collect::<Vec<_>>(), [MASK_SEED_BYTES; 18]);
}

#[test]
fn bits_of_a_signature() {
    for (set, zeros, most) in [
        (Set::Raccoon128, 86_784, 17_180_288_256),
        (Set::Raccoon192, 108_928, 21_475_410_304),
        (Set::Raccoon256, 152_064, 30_065_521_152),
    ] {
        let (k, l) = (set.k() * N, set.l() * N);
        assert_eq!(set.signature_bits(&vec![0; k], &vec![0; l]), Ok(zeros));
        assert_eq!(set.signature_bits(&vec![i8::MIN; k], &vec![i64::MIN; l]), Ok(most));
        for (hints, responses) in [(k - 1, l), (k + 1, l), (k, l - 1), (k, l + 1), (l, k), (0, 0)] {
            let refused = set.signature_bits(&vec![0; hints], &vec![0; responses]);
            assert_eq!(refused, Err(Refusal::BadSignatureLength), "{hints} and {responses}");
        }
    }
}

#[test]
fn numbers_of_sets_and_share_counts() {
    assert_eq!(Set::try_from(192), Ok(Set::Raccoon192));
    assert_eq!([0, 1, 127, 129, 384].map(Set::try_from), [Err(Refusal::BadSet); 5]);
    assert_eq!(Shares::try_from(32), Ok(Shares::ThirtyTwo));
    assert_eq!([0, 3, 33, 64, u32::MAX].map(Shares::try_from), [Err(Refusal::BadShareCount); 5]);
}

#[test]
fn questions_are_those_of_the_header() {
    let header = include_str!("../../../include/raccoon.h");
    let status = |line: &'static str| {
        let (number, text) = line.trim().strip_prefix("RACCOON_")?.split_once(" = ")?.1.split_once("/* ")?;
        Some((number.trim().trim_end_matches(',').parse::<u32>().ok()?, text))
    };
    let mut statuses = header.lines().skip_while(|line| !line.starts_with("enum raccoon_status")).filter_map(status);
    assert_eq!(statuses.next(), Some((0, "yes to all */")));
    for refusal in Refusal::ALL {
        let (number, text) = statuses.next().unwrap_or_else(|| panic!("the header has no {}", refusal.number()));
        assert_eq!((refusal.number(), Refusal::from_status(number)), (number, Err(refusal)));
        assert!(text.starts_with(refusal.check()), "{text}");
    }
    assert_eq!(statuses.next(), None, "a status that is no refusal");
    assert_eq!(Refusal::ALL.map(Refusal::number)[..], (1..=20).collect::<Vec<u32>>());
    assert_eq!(Refusal::from_status(0), Ok(()));
}

#[test]
fn numbers_of_no_refusal() {
    for status in [21, 22, u32::MAX] {
        assert!(std::panic::catch_unwind(|| Refusal::from_status(status)).is_err(), "{status}");
    }
}

#[test]
fn keys_of_wrong_length_or_contents_are_refused() {
    for params in Params::all().filter(|p| p.shares.count() <= 4) {
        let key = key(params);
        assert_eq!(SigningKey::from_bytes(params, key.as_bytes()).as_ref(), Ok(&key));
        let mut bytes = key.as_bytes().to_vec();
        let last = bytes.len();
        assert_eq!(SigningKey::from_bytes(params, &bytes[1..]), Err(Refusal::BadKeyLength));
        bytes[last - 7..].fill(0xff);
        assert_eq!(SigningKey::from_bytes(params, &bytes), Err(Refusal::BadShareWords));
        bytes[params.set.public_key_bytes() - 1] = 0xff;
        assert_eq!(SigningKey::from_bytes(params, &bytes), Err(Refusal::BadPublicKey));

        let expanded = key.expand().unwrap();
        assert_eq!(expanded.public_key(), key.public_key());
        let file = expanded.to_bytes();
        assert_eq!(ExpandedKey::from_bytes(params, &file).as_ref(), Ok(&expanded));
        assert_eq!(ExpandedKey::from_bytes(params, &file[..file.len() - 1]), Err(Refusal::BadKeyLength));
        let mut words = expanded.words().to_vec();
        assert_eq!(ExpandedKey::from_parts(params, expanded.bytes(), &words[1..]), Err(Refusal::BadKeyLength));
        // the public key alone
        assert_eq!(ExpandedKey::from_parts(params, key.public_key().as_bytes(), &words), Err(Refusal::BadKeyLength));
        words[7] = Q;
        assert_eq!(ExpandedKey::from_parts(params, expanded.bytes(), &words), Err(Refusal::BadShareWords));
    }
}

/// A file is the public key, its digest and the words; each is given back as it is.
#[test]
fn parts_of_an_expanded_key() {
    for params in Params::all().filter(|p| p.shares.count() <= 4) {
        let key = key(params);
        let (expanded, public) = (key.expand().unwrap(), key.public_key());
        let mut digest = vec![0; params.set.digest_bytes()];
        independent::keccak::shake256(public.as_bytes(), &mut digest);
        assert_eq!((expanded.public_key(), expanded.digest()), (public.clone(), &digest[..]));
        assert_eq!(expanded.bytes(), [public.as_bytes(), &digest].concat());
        let words: Vec<u8> = expanded.words().iter().flat_map(|word| word.to_le_bytes()).collect();
        assert_eq!(expanded.to_bytes()[..], [public.as_bytes(), &digest, &words].concat());
    }
}

/// A digest with a bit turned is false, is kept and carried on, and what is signed with it is refused with 16; the true one signs
/// as the signing key does.
#[test]
fn true_and_false_digests() {
    for params in Params::all().filter(|p| p.shares.count() <= 2) {
        let key = key(params);
        let expanded = key.expand().unwrap();
        let seeds = || SigningSeeds::new(params).draw(source("seeds")).unwrap();
        let signed = key.sign(b"digest", seeds()).unwrap();
        assert!(expanded.digest_is_true() && expanded.refresh(&[1; MASK_SEED_BYTES]).unwrap().digest_is_true());
        assert_eq!(expanded.sign(b"digest", seeds()).as_ref(), Ok(&signed));
        for at in [params.set.public_key_bytes(), params.set.expanded_bytes() - 1] {
            let mut file = expanded.to_bytes();
            file[at] ^= 0x10;
            let altered = ExpandedKey::from_bytes(params, &file).unwrap();
            assert!(!altered.digest_is_true(), "{params}, byte {at}");
            assert!(altered.to_bytes() == file && altered.public_key() == key.public_key(), "{params}, byte {at}");
            let fresh = altered.refresh(&[2; MASK_SEED_BYTES]).unwrap();
            assert_eq!((fresh.bytes(), fresh.digest_is_true()), (altered.bytes(), false), "{params}, byte {at}");
            let other = altered.sign(b"digest", seeds()).unwrap();
            assert_ne!(other.signature, signed.signature, "{params}, byte {at}");
            assert_eq!(
                key.public_key().verify(b"digest", &other.signature),
                Err(Refusal::BadSignatureHash),
                "{params}, byte {at}"
            );
        }
        // the digest of another public key
        let mut bytes = expanded.bytes().to_vec();
        bytes[0] ^= 1;
        assert!(!ExpandedKey::from_parts(params, &bytes, expanded.words()).unwrap().digest_is_true(), "{params}");
    }
}

/// A public key whose coefficients are all the same.
fn public_key_of(set: Set, coefficient: u64) -> Vec<u8> {
    let eight: u64 = (0..8).map(|i| coefficient << (7 * i)).sum();
    [vec![0xff; set.seed_bytes()], eight.to_le_bytes()[..7].repeat(set.k() * N / 8)].concat()
}

/// Whatever a public key holds that check 4 passes, its digest can be asked.
#[test]
fn digests_of_extreme_public_keys() {
    for (set, coefficient) in Set::ALL.into_iter().flat_map(|set| [(set, 0), (set, 124)]) {
        let (params, public) = (Params::new(set, Shares::Two), public_key_of(set, coefficient));
        let mut digest = vec![0; set.digest_bytes()];
        independent::keccak::shake256(&public, &mut digest);
        for (digest, is_true) in [(digest, true), (vec![0xff; set.digest_bytes()], false)] {
            let bytes = [&public[..], &digest].concat();
            let key = ExpandedKey::from_parts(params, &bytes, &vec![Q - 1; params.share_words()]).unwrap();
            assert_eq!((key.digest(), key.digest_is_true()), (&digest[..], is_true), "{params}, {coefficient}");
        }
    }
    let bytes = [public_key_of(Set::Raccoon128, 125), vec![0; 32]].concat();
    let refused = ExpandedKey::from_parts(Params::new(Set::Raccoon128, Shares::One), &bytes, &[0; 2048]);
    assert_eq!(refused, Err(Refusal::BadPublicKey));
}

#[test]
fn seeds_of_wrong_length_are_refused() {
    let params = Params::new(Set::Raccoon128, Shares::Two);
    let refused = Err(Refusal::BadSeeds);
    assert_eq!(KeygenSeeds::given(params, &[0; 1183], &[0; 32]).map(|_| ()), refused);
    assert_eq!(KeygenSeeds::given(params, &[0; 1184], &[0; 32]).map(|_| ()), Ok(()));
    let two = SigningSeeds::new(params).attempts(2).unwrap();
    assert_eq!(two.given(&[0; 2304], &[0; 64]).map(|_| ()), Ok(()));
    assert_eq!(two.given(&[0; 2305], &[0; 64]).map(|_| ()), refused);
    assert_eq!(two.given(&[0; 2304], &[0; 63]).map(|_| ()), refused);
    assert_eq!(two.explicit(&[Q - 1; 18432], &[0; 64]).map(|_| ()), Ok(()));
    assert_eq!(two.explicit(&[Q; 18432], &[0; 64]).map(|_| ()), refused);
    assert_eq!(two.explicit(&[0; 18431], &[0; 64]).map(|_| ()), refused);
    assert_eq!(SigningSeeds::new(params).attempts(0).map(|_| ()), Err(Refusal::BadAttempts));
    assert_eq!(
        SigningSeeds::new(params).draw(|_| Err(io::ErrorKind::NotFound.into())).map(|_| ()).unwrap_err().kind(),
        io::ErrorKind::NotFound
    );
}

#[test]
fn four_forms_of_signing_verify() {
    for params in Params::all().filter(|p| p.shares.count() <= 8) {
        let key = key(params);
        let expanded = key.expand().unwrap().refresh(&[9; MASK_SEED_BYTES]).unwrap();
        let seeds = |label| SigningSeeds::new(params).draw(source(label)).unwrap();
        // no noise at all: within the bounds, and good for nothing else
        let none = || SigningSeeds::new(params).attempts(1).unwrap().explicit(&vec![0; params.noise_words()], &[7; 32]).unwrap();
        let message = b"release tram 17";
        let signed = [
            key.sign(message, seeds("seeds")).unwrap(),
            expanded.sign(message, seeds("seeds")).unwrap(),
            key.sign_explicit(message, none()).unwrap(),
            expanded.sign_explicit(message, none()).unwrap(),
        ];
        assert_eq!(signed[0], signed[1]);
        assert_eq!(signed[2], signed[3]);
        assert_ne!(signed[0].signature, signed[2].signature);
        for Signed { signature, attempt } in &signed {
            assert_eq!(*attempt, 1);
            assert_eq!(key.public_key().verify(message, signature), Ok(()));
            assert_eq!(key.public_key().verify(b"release tram 18", signature), Err(Refusal::BadSignatureHash));
            assert_eq!(Signature::from_bytes(params.set, signature.as_bytes()).as_ref(), Ok(signature));
            assert_eq!(Signature::from_bytes(params.set, &signature.as_bytes()[1..]), Err(Refusal::BadSignatureLength));
        }
    }
}

#[test]
fn what_signing_refuses() {
    let params = Params::new(Set::Raccoon128, Shares::One);
    let key = key(params);
    let seeds = |params| SigningSeeds::new(params).attempts(3).unwrap().draw(source("seeds")).unwrap();
    let long = key.sign(&[0; MAX_MESSAGE_BYTES + 1], seeds(params)).unwrap_err();
    assert_eq!(long.to_string(), "9: Is the message at most 4096 bytes? No.");
    let other = key.sign(b"", seeds(Params::new(Set::Raccoon192, Shares::One))).unwrap_err();
    assert_eq!(other, NotSigned { refusal: Refusal::BadSeeds, attempts: 0 });
    // shares that are not those of the public key
    let expanded = key.expand().unwrap();
    let mut words = expanded.words().to_vec();
    words[0] = (words[0] + Q / 2) % Q;
    let altered = ExpandedKey::from_parts(params, expanded.bytes(), &words).unwrap();
    let none = altered.sign(b"", seeds(params)).unwrap_err();
    assert_eq!(none, NotSigned { refusal: Refusal::NoAttemptPassed, attempts: 3 });
    assert!(none.to_string().ends_with("No. (after 3 attempts)"));
}

/// A slip as paper 02 has it, number by number.
fn slip_bytes(movement: u16, track: u8, text: &[u8], signature: &[u8]) -> Vec<u8> {
    let length = text.len() as u16;
    [b"TMR", &1u16.to_le_bytes()[..], &movement.to_le_bytes(), &[track], &length.to_le_bytes(), text, signature].concat()
}

/// A slip of the set, signed by [`key`] with one share.
fn signed_slip(set: Set, movement: u16, track: u8, text: &[u8]) -> Slip {
    let params = Params::new(set, Shares::One);
    let seeds = SigningSeeds::new(params).draw(source("slip")).unwrap();
    key(params).sign_slip(movement, track, text, seeds).unwrap().slip
}

/// The fields and the bytes of a slip are those of paper 02; it reads back to its fields, and what was read writes back to its bytes.
#[test]
fn slips_are_written_and_read() {
    let any: Vec<u8> = (0..MAX_TEXT_BYTES).map(|i| (i * 7) as u8).collect();
    for (params, n) in Params::all().filter(|p| p.shares.count() <= 2).flat_map(|p| [0, 1, 38, 511, 512].map(|n| (p, n))) {
        let (key, text, movement, track) = (key(params), &any[any.len() - n..], 0xfe00 | n as u16, 0x80 | n as u8);
        let seeds = || SigningSeeds::new(params).draw(source("slip")).unwrap();
        let signed = key.sign_slip(movement, track, text, seeds()).unwrap();
        assert_eq!(key.expand().unwrap().sign_slip(movement, track, text, seeds()).as_ref(), Ok(&signed), "{params}, {n}");

        let SignedSlip { slip, attempt } = signed;
        let message = Slip::message(movement, track, text).unwrap();
        assert_eq!(message, slip_bytes(movement, track, text, &[]), "{params}, {n}");
        assert_eq!(key.sign(&message, seeds()), Ok(Signed { signature: slip.signature().clone(), attempt }), "{params}, {n}");
        assert_eq!(slip.to_bytes(), slip_bytes(movement, track, text, slip.signature().as_bytes()), "{params}, {n}");
        assert_eq!((slip.movement(), slip.track(), slip.text(), slip.set()), (movement, track, text, params.set));

        let read = Slip::read(&key.public_key(), &slip.to_bytes());
        assert_eq!(read.as_ref(), Ok(&slip), "{params}, {n}");
        assert_eq!(Slip::look(&slip.to_bytes()).as_ref().map(|looked| looked.fields()), Ok(&slip), "{params}, {n}");
        assert_eq!(Slip::new(movement, track, text, slip.signature().clone()).as_ref(), Ok(&slip), "{params}, {n}");
    }
}

#[test]
fn texts_that_are_too_long() {
    let params = Params::new(Set::Raccoon192, Shares::One);
    for n in [513, 514, 65536, 65536 + 512] {
        let text = vec![b'.'; n];
        let zeros = Signature::from_bytes(params.set, &[0; 14544]).unwrap();
        assert_eq!(Slip::new(1, 2, &text, zeros), Err(Refusal::BadSlipLength), "{n}");
        assert_eq!(Slip::message(1, 2, &text), Err(Refusal::BadSlipLength), "{n}");
        let seeds = || SigningSeeds::new(params).draw(source("slip")).unwrap();
        let refused = NotSigned { refusal: Refusal::BadSlipLength, attempts: 0 };
        assert_eq!(key(params).sign_slip(1, 2, &text, seeds()), Err(refused), "{n}");
        assert_eq!(key(params).expand().unwrap().sign_slip(1, 2, &text, seeds()), Err(refused), "{n}");
    }
}

/// The refusals of the reader itself, which bring no fields, with a key or without.
#[test]
fn what_is_no_slip() {
    let public = key(Params::new(Set::Raccoon128, Shares::One)).public_key();
    let good = signed_slip(Set::Raccoon128, 17, 4, b"text").to_bytes();
    let with = |at: usize, byte: u8| {
        let mut bytes = good.clone();
        bytes[at] = byte;
        bytes
    };
    let wide = slip_bytes(17, 4, &[0; 513], &[0; 11524]);
    let cases: [(Vec<u8>, Refusal); 15] = [
        (vec![], Refusal::BadSlipMark),
        (good[..2].to_vec(), Refusal::BadSlipMark),
        (with(0, b't'), Refusal::BadSlipMark),
        (with(2, b'S'), Refusal::BadSlipMark),
        (good[..3].to_vec(), Refusal::BadSlipVersion),
        (good[..4].to_vec(), Refusal::BadSlipVersion),
        (with(3, 2), Refusal::BadSlipVersion),
        (with(4, 1), Refusal::BadSlipVersion),
        (good[..5].to_vec(), Refusal::BadSlipLength),
        (good[..9].to_vec(), Refusal::BadSlipLength),
        (good[..10].to_vec(), Refusal::BadSlipLength),
        (good[..good.len() - 1].to_vec(), Refusal::BadSlipLength),
        ([&good[..], &[0]].concat(), Refusal::BadSlipLength),
        (with(8, 5), Refusal::BadSlipLength),
        (wide, Refusal::BadSlipLength),
    ];
    for (number, (bytes, refusal)) in cases.into_iter().enumerate() {
        assert_eq!(Slip::read(&public, &bytes), Err(NotRead { refusal, unverified: None }), "case {number}");
        assert_eq!(Slip::look(&bytes), Err(refusal), "case {number}");
    }
    assert_eq!(Slip::read(&public, &good).unwrap().to_bytes(), good);
    let refused = Slip::read(&public, b"no slip").unwrap_err();
    assert_eq!(refused.to_string(), "17: Does the slip begin with the mark TMR? No.");
}

/// With the verifier's refusals the fields come back as they stand in the bytes, which they write back to.
#[test]
fn fields_beside_a_refusal() {
    let params = Params::new(Set::Raccoon128, Shares::One);
    let (public, slip) = (key(params).public_key(), signed_slip(Set::Raccoon128, 17, 4, b"text"));
    let other = SigningKey::generate(KeygenSeeds::draw(params, source("other key")).unwrap()).unwrap().public_key();
    let other_set = key(Params::new(Set::Raccoon192, Shares::One)).public_key();
    let with = |at: usize, bytes: &[u8]| {
        let mut slip = slip.to_bytes();
        slip[at..at + bytes.len()].copy_from_slice(bytes);
        slip
    };
    // a hint of 5, where 2 is the most
    let wide = slip_bytes(17, 4, b"text", &[vec![0; 32], vec![0x1f], vec![0; 11491]].concat());
    let cases = [
        (&other_set, slip.to_bytes(), Refusal::BadKeyLength),
        (&other, slip.to_bytes(), Refusal::BadSignatureHash),
        (&public, with(5, &[18]), Refusal::BadSignatureHash),
        (&public, with(7, &[5]), Refusal::BadSignatureHash),
        (&public, with(10, b"next"), Refusal::BadSignatureHash),
        (&public, with(14, &[slip.signature().as_bytes()[0] ^ 1]), Refusal::BadSignatureHash),
        (&public, with(14 + 6524, &[0xff; 5000]), Refusal::BadSignatureForm),
        (&public, wide, Refusal::BadSignatureBounds),
    ];
    for (key, bytes, refusal) in cases {
        let NotRead { refusal: found, unverified } = Slip::read(key, &bytes).unwrap_err();
        let unverified = unverified.expect("fields");
        let fields = unverified.fields();
        assert_eq!((found, fields.set()), (refusal, Set::Raccoon128));
        assert_eq!((fields.movement(), fields.track()), (u16::from_le_bytes([bytes[5], bytes[6]]), bytes[7]), "{refusal}");
        assert_eq!((fields.text(), fields.signature().as_bytes()), (&bytes[10..14], &bytes[14..]), "{refusal}");
        assert_eq!((fields.to_bytes(), Slip::look(&bytes).as_ref()), (bytes, Ok(&unverified)), "{refusal}");
    }
    // the key as well: a slip of another set is refused, and found to be of its own
    let slip = signed_slip(Set::Raccoon256, 1, 2, b"");
    assert_eq!(Slip::read(&public, &slip.to_bytes()).unwrap_err().refusal, Refusal::BadKeyLength);
    assert_eq!(Slip::look(&slip.to_bytes()).unwrap().fields().set(), Set::Raccoon256);
}

#[test]
fn secrets_are_not_printed() {
    let key = key(Params::new(Set::Raccoon128, Shares::Four));
    assert_eq!(format!("{key:?} {:?}", key.expand().unwrap()), "SigningKey(128-4, ..) ExpandedKey(128-4, ..)");
}

#[test]
fn calls_share_nothing() {
    let params = Params::new(Set::Raccoon128, Shares::Four);
    let key = key(params);
    let sign = |number: u8| key.sign(&[number], SigningSeeds::new(params).draw(source("threads")).unwrap()).unwrap();
    let alone: Vec<Signed> = (0..8).map(sign).collect();
    let together: Vec<Signed> = std::thread::scope(|scope| {
        let threads: Vec<_> = (0..8).map(|number| scope.spawn(move || sign(number))).collect();
        threads.into_iter().map(|thread| thread.join().unwrap()).collect()
    });
    assert_eq!(together, alone);
    assert!((0..8).all(|number| key.public_key().verify(&[number as u8], &alone[number].signature).is_ok()));
}
