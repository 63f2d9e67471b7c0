//! Random and damaged calls with a fixed seed, every answer compared with the expected one; lengths around every limit at all 18
//! pairs of set and share count; and that the comparison notices what it has to notice. The program `fuzz` runs for longer.

use compare::case::{Answer, Calls, Case, EXPECTED, Field, GUARD, Inputs, KINDS, Kind, UNIT, compare, only_read};
use compare::fuzz::{Fuzz, Tally};
use compare::independent::keccak::shake256;
use compare::independent::masks::{MaskGenerator, Masks};
use compare::independent::raccoon::{Edition, Params, check_bounds, read, refresh, with_digest};
use compare::independent::ring::N;
use compare::independent::slip;
use compare::known::words_modulo_q;
use compare::layout::{draws, encoding_masks};
use compare::pool::{SETS, SHARES};
use compare::random::Random;
use compare::unit::{self, Bits, Key, ReadSlip, Signed, Signing};
use std::collections::BTreeSet;
use std::process::Command;

const SEED: u64 = 1;
const CASES: u64 = 20_000;
const THREADS: u64 = 2;

/// The tally of one thread's part of the cases.
fn part(fuzz: &Fuzz, first: u64) -> Tally {
    let mut tally = Tally::new();
    for number in (first..CASES).step_by(THREADS as usize) {
        fuzz.put(number, &UNIT, &mut tally).unwrap_or_else(|difference| panic!("{difference}"));
    }
    tally
}

#[test]
fn random_and_damaged_calls() {
    let fuzz = Fuzz::new(SEED);
    let mut tally = Tally::new();
    std::thread::scope(|scope| {
        let fuzz = &fuzz;
        let threads: Vec<_> = (0..THREADS).map(|first| scope.spawn(move || part(fuzz, first))).collect();
        for (key, count) in threads.into_iter().flat_map(|thread| thread.join().expect("a part of the cases")) {
            *tally.entry(key).or_default() += count;
        }
    });
    assert_eq!(tally.values().sum::<u64>(), CASES);
    for kind in KINDS {
        let met: BTreeSet<u32> = tally.keys().filter(|key| key.0 == kind).map(|key| key.1).collect();
        assert_eq!(met, kind.statuses().iter().copied().collect(), "the statuses that {kind:?} met");
        if kind.signs() {
            for status in [0, 12] {
                let attempts = tally.keys().filter(|key| key.0 == kind && key.1 == status).map(|key| key.2).max();
                assert!(attempts > Some(1), "{kind:?} never gave {status} after a second attempt");
            }
        }
    }
}

/// All that a call reads, in the right lengths and well-formed: a message of 4096 bytes, a text of 512, a signature of ones, zeros else.
fn well_formed(kind: Kind, p: &Params) -> Case {
    let mut inputs = Inputs { set: p.kappa as u32, shares: p.d as u32, attempts: 1, ..Inputs::default() };
    let n = |field: Field| if kind.fields().contains(&field) { kind.length(field, p, 1) } else { 0 };
    inputs.key = vec![0; n(Field::Key)];
    inputs.words = vec![0; n(Field::Words)];
    inputs.message = vec![0; n(Field::Message)];
    inputs.signature = vec![0xff; n(Field::Signature)];
    inputs.seeds = vec![0; n(Field::Seeds)];
    inputs.noise = vec![0; n(Field::Noise)];
    inputs.mask_seeds = vec![0; n(Field::MaskSeeds)];
    inputs.hint = vec![0; n(Field::Hint)];
    inputs.response = vec![0; n(Field::Response)];
    inputs.text = vec![0; n(Field::Text)];
    if kind.fields().contains(&Field::Slip) {
        inputs.slip = slip::write(0, 0, &[0; 512], &vec![0xff; p.sig_bytes]).unwrap();
    }
    Case::new(kind, p, inputs, &mut Random(70))
}

/// The number of the check that refuses a field of this length.
fn number(kind: Kind, field: Field, length: usize) -> u32 {
    match field {
        Field::Slip if length == 0 => 17,
        Field::Signature if kind == Kind::WriteSlip => 19,
        Field::Key | Field::Words => 3,
        Field::Seeds | Field::Noise | Field::MaskSeeds => 7,
        Field::ResultBytes | Field::ResultWords | Field::ResultSigns | Field::Work => 8,
        Field::Message => 9,
        Field::Signature | Field::Hint | Field::Response => 13,
        Field::Text | Field::Slip => 19,
    }
}

/// A field whose length is asked behind that of the given one, so that even a right length ends in a refusal.
fn later(kind: Kind, field: Field) -> Option<Field> {
    match field {
        Field::Slip => Some(Field::Key),
        Field::Key if kind == Kind::ReadSlip => None,
        Field::Text | Field::Signature if kind == Kind::WriteSlip => Some(Field::ResultBytes),
        Field::Message if kind.verifies() => Some(Field::Signature),
        Field::Message | Field::Signature | Field::Hint | Field::Response => None,
        _ if kind.signs() || kind.verifies() => Some(Field::Message),
        Field::ResultBytes | Field::ResultWords | Field::ResultSigns | Field::Work => None,
        _ => kind.fields().last().copied(),
    }
}

/// One length of one field, all else well-formed but for a field that is asked later.
fn check_length(well_formed: &Case, field: Field, right: usize, length: usize) {
    let (kind, set, shares) = (well_formed.kind, well_formed.inputs.set, well_formed.inputs.shares);
    let passes = if matches!(field, Field::Message | Field::Text) { length <= right } else { length == right };
    let next = later(kind, field);
    // a call that ends in no refusal takes its time
    let slow = next.is_none() && (kind.signs() || kind.generates());
    if passes && slow && shares > 2 {
        return;
    }
    let mut case = well_formed.clone();
    let mut random = Random(71);
    case.resize(field, length, &mut random);
    if let Some(next) = next {
        case.resize(next, case.length(next) + 1, &mut random);
    }
    let what = format!("{kind:?} of {set}-{shares}: {length} for {field:?}, where {right} is right");
    let (status, _) = case.check(&UNIT).unwrap_or_else(|difference| panic!("{what}: {difference}"));
    match next {
        _ if !passes => assert_eq!(status, number(kind, field, length), "{what}"),
        Some(next) => assert_eq!(status, number(kind, next, case.length(next)), "{what}"),
        None => assert_ne!(status, number(kind, field, length), "{what}"),
    }
}

#[test]
fn lengths_around_every_limit() {
    for kind in KINDS {
        for set in SETS {
            for shares in SHARES {
                let p = Params::new(set, shares, kind.edition()).unwrap();
                let well_formed = well_formed(kind, &p);
                // a sampler takes bytes of any length
                for &field in kind.fields().iter().filter(|&&field| !(kind.samples() && field == Field::Seeds)) {
                    let right = kind.length(field, &p, 1);
                    // a public key alone in place of an expanded key's bytes
                    let expanded = matches!(field, Field::Key | Field::ResultBytes) && right == p.expanded_bytes();
                    let public_key = expanded.then_some(p.vk_bytes());
                    for length in [right, right - 1, right + 1, 0, 2 * right].into_iter().chain(public_key) {
                        check_length(&well_formed, field, right, length);
                    }
                }
            }
        }
    }
}

/// Answers of every call, and with them the inputs: one that gave 0, one that was refused.
fn answers() -> Vec<(Case, Answer)> {
    let fuzz = Fuzz::new(2);
    let mut wanted: BTreeSet<(Kind, bool)> = KINDS.iter().flat_map(|&kind| [(kind, true), (kind, false)]).collect();
    let mut found = vec![];
    for number in 0.. {
        if wanted.is_empty() {
            break;
        }
        let case = fuzz.case(number);
        if case.inputs.shares < 8 && wanted.iter().any(|&(kind, _)| kind == case.kind) {
            let answer = case.put(&EXPECTED).unwrap();
            if wanted.remove(&(case.kind, answer.status == 0)) {
                found.push((case, answer));
            }
        }
    }
    found
}

/// The places at which a change has to be noticed: guards at both ends, and what is lent at both ends and in the middle.
fn places(length: usize) -> [usize; 7] {
    [0, GUARD - 1, GUARD, length / 2, length - GUARD - 1, length - GUARD, length - 1]
}

/// Each change of an answer is noticed.
fn check_compare(kind: Kind, right: &Answer) {
    assert!(compare(right, &right.clone()).is_ok());
    let noticed = |what: &str, change: &dyn Fn(&mut Answer)| {
        let mut wrong = right.clone();
        change(&mut wrong);
        assert!(compare(&wrong, right).is_err() && compare(right, &wrong).is_err(), "{kind:?}: {what} was not noticed");
    };
    noticed("another status", &|answer| answer.status += 1);
    noticed("another number of attempts", &|answer| answer.attempts += 1);
    (0..7).for_each(|i| noticed("another number told", &|answer| answer.told[i] ^= 1 << 40));
    let buffers = &right.buffers;
    places(buffers.bytes.len()).into_iter().for_each(|at| noticed("a byte", &|answer| answer.buffers.bytes[at] ^= 0x10));
    places(buffers.words.len()).into_iter().for_each(|at| noticed("a word", &|answer| answer.buffers.words[at] ^= 1 << 63));
    places(buffers.signs.len()).into_iter().for_each(|at| noticed("a signed byte", &|answer| answer.buffers.signs[at] ^= 1));
    places(buffers.work.len()).into_iter().for_each(|at| noticed("a word of work", &|answer| answer.buffers.work[at] ^= 1));
}

/// A change of the last element of each input is noticed.
fn check_only_read(before: &Inputs) {
    assert!(only_read(&before.clone(), before).is_ok());
    let byte = |bytes: &mut Vec<u8>| bytes.iter_mut().last().into_iter().for_each(|byte| *byte ^= 1);
    let word = |words: &mut Vec<u64>| words.iter_mut().last().into_iter().for_each(|word| *word ^= 1);
    let changes: [&dyn Fn(&mut Inputs); 11] = [
        &|inputs| byte(&mut inputs.key),
        &|inputs| word(&mut inputs.words),
        &|inputs| byte(&mut inputs.message),
        &|inputs| byte(&mut inputs.signature),
        &|inputs| byte(&mut inputs.seeds),
        &|inputs| word(&mut inputs.noise),
        &|inputs| byte(&mut inputs.mask_seeds),
        &|inputs| inputs.hint.iter_mut().last().into_iter().for_each(|number| *number ^= 1),
        &|inputs| inputs.response.iter_mut().last().into_iter().for_each(|number| *number ^= 1),
        &|inputs| byte(&mut inputs.text),
        &|inputs| byte(&mut inputs.slip),
    ];
    for change in changes {
        let mut after = before.clone();
        change(&mut after);
        // what the call does not take is empty
        assert_eq!(only_read(&after, before).is_err(), after != *before);
    }
}

#[test]
fn a_difference_is_noticed() {
    for (case, right) in answers() {
        check_compare(case.kind, &right);
        check_only_read(&case.inputs);
    }
}

/// A unit that goes wrong in one call: what it does, and in which.
type Wrong = (&'static str, Kind, Calls);

fn wrong_on_keys() -> Vec<Wrong> {
    let leaves_work = |edition, set, shares, seeds: &[u8], mask_seed: &[u8], key: &mut [u8], work: &mut [u64]| {
        let status = unit::keygen(edition, set, shares, seeds, mask_seed, key, work);
        work.iter_mut().last().into_iter().for_each(|word| *word |= 1);
        status
    };
    let writes = |edition, set, shares, key: &[u8], bytes: &mut [u8], words: &mut [u64]| {
        let status = unit::expand_key(edition, set, shares, key, bytes, words);
        if status == 8 {
            bytes.iter_mut().take(1).for_each(|byte| *byte = !*byte);
        }
        status
    };
    let copies = |set, shares, key: (&[u8], &[u64]), mask_seed: &[u8], bytes: &mut [u8], words: &mut [u64]| {
        let status = unit::refresh_key(set, shares, key, mask_seed, bytes, words);
        if status == 0 {
            words.copy_from_slice(key.1);
        }
        status
    };
    let other_edition = |_, set, shares, key: &[u8], bytes: &mut [u8], words: &mut [u64]| {
        unit::expand_key(Edition::Kat, set, shares, key, bytes, words)
    };
    vec![
        ("leaves a word of work", Kind::Keygen, Calls { keygen: leaves_work, ..UNIT }),
        ("writes a byte at a refusal", Kind::ExpandKey, Calls { expand_key: writes, ..UNIT }),
        ("expands in the other edition", Kind::ExpandKey, Calls { expand_key: other_edition, ..UNIT }),
        ("does not refresh", Kind::RefreshKey, Calls { refresh_key: copies, ..UNIT }),
    ]
}

/// Refreshes as the unit does, but with these masking words, each below q.
fn refreshed_with(
    words_of: fn(&[u8], usize) -> Vec<u64>,
    (set, shares): (u32, u32),
    mask_seed: &[u8],
    key: &[u64],
    words: &mut [u64],
) {
    let p = Params::new(set as usize, shares as usize, Edition::Printed).unwrap();
    let masks = draws(&words_of(mask_seed, p.l * encoding_masks(p.d)));
    words.copy_from_slice(&refresh(&p, key, Masks::Lent(&masks)).unwrap());
}

fn modulo_q(seed: &[u8], polynomials: usize) -> Vec<u64> {
    words_modulo_q(seed, polynomials * N)
}

/// Each polynomial 777 draws behind the one before, in place of behind its last draw.
fn far_behind(seed: &[u8], polynomials: usize) -> Vec<u64> {
    let mut stream = vec![0; 7 * 777 * polynomials];
    shake256(seed, &mut stream);
    stream.chunks_exact(7 * 777).flat_map(|draws| MaskGenerator::new(Masks::Lent(draws)).poly().unwrap()).collect()
}

/// Each polynomial at the beginning of a block, in place of within the one where the last draw was.
fn in_whole_blocks(seed: &[u8], polynomials: usize) -> Vec<u64> {
    let mut stream = vec![0; 136 * 40 * polynomials];
    shake256(seed, &mut stream);
    let mut at = 0;
    let mut next = || {
        let mut masks = MaskGenerator::new(Masks::Lent(&stream[at..]));
        let poly = masks.poly().unwrap();
        at += (7 * masks.draws()).next_multiple_of(136);
        poly
    };
    (0..polynomials).flat_map(|_| next()).collect()
}

fn wrong_on_masks() -> Vec<Wrong> {
    macro_rules! with {
        ($words:ident) => {
            |set, shares, key: (&[u8], &[u64]), mask_seed: &[u8], bytes: &mut [u8], words: &mut [u64]| {
                let status = unit::refresh_key(set, shares, key, mask_seed, bytes, words);
                if status == 0 {
                    refreshed_with($words, (set, shares), mask_seed, key.1, words);
                }
                status
            }
        };
    }
    vec![
        ("takes masking words modulo q", Kind::RefreshKey, Calls { refresh_key: with!(modulo_q), ..UNIT }),
        ("gives each polynomial of masks all its draws", Kind::RefreshKey, Calls { refresh_key: with!(far_behind), ..UNIT }),
        ("begins each polynomial of masks with a block", Kind::RefreshKey, Calls { refresh_key: with!(in_whole_blocks), ..UNIT }),
    ]
}

/// The bytes of an expanded key with the digest made anew.
fn anew(set: u32, bytes: &[u8]) -> Vec<u8> {
    let p = Params::new(set as usize, 1, Edition::Printed).unwrap();
    with_digest(&p, &bytes[..p.vk_bytes()])
}

fn wrong_on_digests() -> Vec<Wrong> {
    let hashes = |edition, input: &Signing, signature: &mut [u8], work: &mut [u64]| {
        let mut signed = unit::sign(edition, input, signature, work);
        if let (0, Key::Expanded(bytes, words)) = (signed.status, input.key) {
            let key = Key::Expanded(&anew(input.set, bytes), words);
            signed = unit::sign(edition, &Signing { key, ..*input }, signature, work);
        }
        signed
    };
    let mends = |set, shares, key: (&[u8], &[u64]), mask_seed: &[u8], bytes: &mut [u8], words: &mut [u64]| {
        let status = unit::refresh_key(set, shares, key, mask_seed, bytes, words);
        if status == 0 {
            bytes.copy_from_slice(&anew(set, key.0));
        }
        status
    };
    let in_front = |edition, set, shares, key: &[u8], bytes: &mut [u8], words: &mut [u64]| {
        let status = unit::expand_key(edition, set, shares, key, bytes, words);
        if status == 0 {
            bytes.rotate_right(set as usize / 4);
        }
        status
    };
    let hashing = Calls { sign: hashes, ..UNIT };
    vec![
        ("hashes the public key in signing", Kind::SignExpanded, hashing),
        ("hashes the public key in signing", Kind::SignExpandedExplicit, hashing),
        ("mends the digest in refreshing", Kind::RefreshKey, Calls { refresh_key: mends, ..UNIT }),
        ("puts the digest in front", Kind::ExpandKey, Calls { expand_key: in_front, ..UNIT }),
        ("puts the digest in front", Kind::KatExpandKey, Calls { expand_key: in_front, ..UNIT }),
    ]
}

/// Do the fields of a signature pass, with another bound of the sum?
fn passes(set: u32, signature: &[u8], b22: impl Fn(u64) -> u64) -> bool {
    let p = Params::new(set as usize, 1, Edition::Printed).unwrap();
    check_bounds(&Params { b22: b22(p.b22), ..p }, &read(&p, signature).unwrap())
}

fn wrong_on_bounds() -> Vec<Wrong> {
    let no_bounds = |edition, set, key: &[u8], message: &[u8], signature: &[u8]| {
        let status = unit::verify(edition, set, key, message, signature);
        if status == 15 { 16 } else { status }
    };
    let no_sum = |edition, set, key: &[u8], message: &[u8], signature: &[u8]| {
        let status = unit::verify(edition, set, key, message, signature);
        if status == 15 && passes(set, signature, |_| u64::MAX) { 16 } else { status }
    };
    let larger_sum = |edition, set, key: &[u8], message: &[u8], signature: &[u8]| {
        let status = unit::verify(edition, set, key, message, signature);
        if status == 15 && passes(set, signature, |b22| b22 + 1) { 16 } else { status }
    };
    let smaller_sum = |edition, set, key: &[u8], message: &[u8], signature: &[u8]| {
        let status = unit::verify(edition, set, key, message, signature);
        if status == 16 && !passes(set, signature, |b22| b22 - 1) { 15 } else { status }
    };
    vec![
        ("tells 16 for 15", Kind::Verify, Calls { verify: no_bounds, ..UNIT }),
        ("leaves out the sum", Kind::Verify, Calls { verify: no_sum, ..UNIT }),
        ("accepts a sum just above its bound", Kind::Verify, Calls { verify: larger_sum, ..UNIT }),
        ("refuses a sum at its bound", Kind::KatVerify, Calls { verify: smaller_sum, ..UNIT }),
    ]
}

fn wrong_on_signatures() -> Vec<Wrong> {
    let zeroes_work = |edition, input: &Signing, signature: &mut [u8], work: &mut [u64]| {
        let signed = unit::sign(edition, input, signature, work);
        work.fill(0);
        signed
    };
    let first_attempt = |edition, input: &Signing, signature: &mut [u8], work: &mut [u64]| Signed {
        attempts: 1,
        ..unit::sign(edition, input, signature, work)
    };
    let sixteen = |edition, input: &Signing, signature: &mut [u8], work: &mut [u64]| {
        let signed = unit::sign(edition, input, signature, work);
        if input.attempts == 16 && signed.attempts > 0 { Signed { status: 6, attempts: 0 } } else { signed }
    };
    let long_message = |edition, set, key: &[u8], message: &[u8], signature: &[u8]| {
        let status = unit::verify(edition, set, key, message, signature);
        if message.len() == 4096 && status == 16 { 9 } else { status }
    };
    let accepts = |_, _, _: &[u8], _: &[u8], _: &[u8]| 0;
    vec![
        ("zeroes work after a refusal", Kind::Sign, Calls { sign: zeroes_work, ..UNIT }),
        ("always tells of one attempt", Kind::SignExplicit, Calls { sign: first_attempt, ..UNIT }),
        ("refuses 16 attempts", Kind::SignExpandedExplicit, Calls { sign: sixteen, ..UNIT }),
        ("refuses a message of 4096 bytes", Kind::Verify, Calls { verify: long_message, ..UNIT }),
        ("accepts all", Kind::Verify, Calls { verify: accepts, ..UNIT }),
    ]
}

fn wrong_samplers() -> Vec<Wrong> {
    let draws_more = |bytes: &[u8], words: &mut [u64]| match unit::sample_uniform(bytes, words) {
        10 if bytes.len() >= 778 * 7 => unit::sample_uniform(&bytes[7..], words),
        status => status,
    };
    let draws_less = |bytes: &[u8], words: &mut [u64]| unit::sample_uniform(&bytes[..bytes.len().min(776 * 7)], words);
    let places_less =
        |set, bytes: &[u8], signs: &mut [i8]| unit::sample_challenge(set, &bytes[..bytes.len().min(1087 * 2)], signs);
    let set_last = |set, bytes: &[u8], signs: &mut [i8]| {
        if signs.len() == 512 { unit::sample_challenge(set, bytes, signs) } else { 8 }
    };
    vec![
        ("draws once too often", Kind::SampleUniform, Calls { sample_uniform: draws_more, ..UNIT }),
        ("draws once too little", Kind::SampleUniform, Calls { sample_uniform: draws_less, ..UNIT }),
        ("draws a place too little", Kind::SampleChallenge, Calls { sample_challenge: places_less, ..UNIT }),
        ("asks for the set last", Kind::SampleChallenge, Calls { sample_challenge: set_last, ..UNIT }),
    ]
}

fn wrong_on_numbers() -> Vec<Wrong> {
    let more_attempts = |set, shares, attempts| match unit::lengths(set, shares, attempts) {
        answer if answer.status == 6 && attempts == 17 => unit::lengths(set, shares, 16),
        answer => answer,
    };
    let attempts_first = |set, shares, attempts: u32| match attempts {
        1..=16 => unit::lengths(set, shares, attempts),
        _ => unit::lengths(128, 1, attempts),
    };
    let short = |set, hint: &[i8], response: &[i64]| match unit::signature_bits(set, hint, response) {
        answer if answer.status == 0 => Bits { bits: answer.bits as u32 as u64, ..answer },
        answer => answer,
    };
    let lengths_first = |set, hint: &[i8], response: &[i64]| match unit::signature_bits(set, hint, response) {
        answer if answer.status == 1 && hint.is_empty() => Bits { status: 13, ..answer },
        answer => answer,
    };
    vec![
        ("tells the lengths of 17 attempts", Kind::Lengths, Calls { lengths: more_attempts, ..UNIT }),
        ("asks for the attempts first", Kind::Lengths, Calls { lengths: attempts_first, ..UNIT }),
        ("counts with 32 bits", Kind::SignatureBits, Calls { signature_bits: short, ..UNIT }),
        ("asks for the set last", Kind::SignatureBits, Calls { signature_bits: lengths_first, ..UNIT }),
    ]
}

/// Is it a slip but for its text of 513 bytes?
fn has_long_text(slip: &[u8]) -> bool {
    slip.starts_with(b"TMR\x01\0")
        && slip.get(8..10) == Some(&[1, 2])
        && [11_524, 14_544, 20_330].map(|n| n + 523).contains(&slip.len())
}

fn wrong_on_slips() -> Vec<Wrong> {
    let swaps = |key: &[u8], slip: &[u8]| {
        let read = unit::read_slip(key, slip);
        ReadSlip { movement: read.movement.swap_bytes(), ..read }
    };
    let long_text = |key: &[u8], slip: &[u8]| {
        let read = unit::read_slip(key, slip);
        if has_long_text(slip) { ReadSlip { status: 16, ..read } } else { read }
    };
    let brings = |key: &[u8], slip: &[u8]| match unit::read_slip(key, slip) {
        read if read.status == 19 && slip.len() >= 10 => ReadSlip { track: slip[7], ..read },
        read => read,
    };
    let text_alone = |key: &[u8], slip: &[u8]| match unit::read_slip(key, slip) {
        read if read.set > 0 => {
            let (text, signature) = (&slip[read.text_at..read.signature_at], &slip[read.signature_at..]);
            ReadSlip { status: unit::verify(Edition::Printed, read.set, key, text, signature), ..read }
        }
        read => read,
    };
    let buffer_first = |movement, track, text: &[u8], signature: &[u8], slip: &mut [u8]| match slip.len() {
        n if n != 10 + text.len() + signature.len() => 8,
        _ => unit::write_slip(movement, track, text, signature, slip),
    };
    let leaves = |movement, track, text: &[u8], signature: &[u8], slip: &mut [u8]| {
        let last = slip.last().copied();
        let status = unit::write_slip(movement, track, text, signature, slip);
        slip.iter_mut().last().zip(last).into_iter().for_each(|(byte, last)| *byte = last);
        status
    };
    vec![
        ("reads a movement number big-endian", Kind::ReadSlip, Calls { read_slip: swaps, ..UNIT }),
        ("accepts a text of 513 bytes", Kind::ReadSlip, Calls { read_slip: long_text, ..UNIT }),
        ("brings fields with 19", Kind::ReadSlip, Calls { read_slip: brings, ..UNIT }),
        ("verifies the text alone", Kind::ReadSlip, Calls { read_slip: text_alone, ..UNIT }),
        ("asks for the buffer first", Kind::WriteSlip, Calls { write_slip: buffer_first, ..UNIT }),
        ("leaves the last byte", Kind::WriteSlip, Calls { write_slip: leaves, ..UNIT }),
    ]
}

#[test]
fn a_wrong_unit_is_noticed() {
    let fuzz = Fuzz::new(SEED);
    let all = [
        wrong_on_keys(),
        wrong_on_masks(),
        wrong_on_digests(),
        wrong_on_bounds(),
        wrong_on_signatures(),
        wrong_samplers(),
        wrong_on_numbers(),
        wrong_on_slips(),
    ]
    .concat();
    for (what, kind, calls) in all {
        let mut these = (0..CASES).filter(|&number| fuzz.case(number).kind == kind);
        let first = these.find_map(|number| Some((number, fuzz.put(number, &calls, &mut Tally::new()).err()?)));
        let (number, difference) = first.unwrap_or_else(|| panic!("a unit that {what} was not noticed"));
        assert!(difference.starts_with(&format!("seed {SEED}, case {number} (")), "{what}: {difference}");
        // the same case by itself
        assert_eq!(Fuzz::new(SEED).put(number, &calls, &mut Tally::new()), Err(difference), "{what}");
    }
}

/// The exit status of the program, and what it printed.
fn program(arguments: &[&str]) -> (Option<i32>, String) {
    let output = Command::new(env!("CARGO_BIN_EXE_fuzz")).args(arguments).output().expect("the program");
    (output.status.code(), String::from_utf8(output.stdout).expect("text"))
}

#[test]
fn the_program() {
    let (status, text) = program(&["--seed", "5", "--cases", "100"]);
    assert!(status == Some(0) && text.starts_with("seed 5\n") && text.ends_with("100 cases\nall alike\n"), "{text}");
    let (status, text) = program(&["--case", "17"]);
    assert!(status == Some(0) && text.ends_with("1 cases\nall alike\n"), "{text}");
    assert_eq!(program(&["--seconds", "0"]).0, Some(0));
    assert_eq!(program(&["--help"]).0, Some(0));
    for arguments in ["--seed", "--seed x", "--cases -1", "5", "--cases 1 --seconds 1", "--seed 1 --seed 2", "--nothing 1"] {
        let split: Vec<&str> = arguments.split(' ').collect();
        assert_eq!(program(&split).0, Some(2), "{arguments}");
    }
}
