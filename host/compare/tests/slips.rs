//! Release slips (paper 02, request #101): slips of all three sets byte by byte, every refusal of reader and writer with its neighbours, the
//! fields beside each verdict, and slips written and read both ways. What is read is compared with the independent implementation, and its
//! verdict with verifying what stands before the signature. Wrong units are noticed.

use compare::bounds::fields_of_norm;
use compare::case::{Calls, GUARD, MAX_TEXT, UNIT, slip_bytes};
use compare::expect;
use compare::independent::masks::Masks;
use compare::independent::raccoon::{self, Edition, Noise, Params, expand, keygen, sign, with_digest};
use compare::independent::slip;
use compare::known::{digest, known, xof};
use compare::layout::put_bits;
use compare::pool::{Base, Pool, SETS};
use compare::random::Random;
use compare::unit::{self, Key, ReadSlip, Signing};
use std::collections::BTreeSet;
use std::hint::black_box;
use std::sync::LazyLock;

/// What is wrong with the calls, if anything.
type Tried = Result<(), String>;

/// The bytes of each set's signatures.
const SIGNATURES: [usize; 3] = [11_524, 14_544, 20_330];

/// Two keys of each set, the second of two shares.
fn base(set: u32, second: bool) -> &'static Base {
    static POOL: LazyLock<Pool> = LazyLock::new(|| Pool::new(101));
    let number = SETS.iter().position(|&other| other == set as usize).unwrap();
    POOL.base(number, usize::from(second), Edition::Printed)
}

/// A slip with its leading bytes by hand, and what reading it says.
struct Worked {
    leading: [u8; 10],
    text: Vec<u8>,
    read: ReadSlip,
    /// Leading bytes, text and a signature of both.
    slip: Vec<u8>,
}

impl Worked {
    fn new(leading: [u8; 10], text: Vec<u8>, read: ReadSlip) -> Worked {
        let (front, base) = ([&leading[..], &text].concat(), base(read.set, false));
        let signature = base.key.signed(&base.p, &front, &mut Random(102));
        Worked { leading, text, read, slip: [front, signature].concat() }
    }

    fn base(&self) -> &'static Base {
        base(self.read.set, false)
    }

    fn key(&self) -> &'static [u8] {
        self.base().public_key()
    }

    fn front(&self) -> &[u8] {
        &self.slip[..self.read.signature_at]
    }

    fn signature(&self) -> &[u8] {
        &self.slip[self.read.signature_at..]
    }

    /// The slip with another signature.
    fn around(&self, signature: &[u8]) -> Vec<u8> {
        [self.front(), signature].concat()
    }
}

/// A good slip's fields: movement, track, set, and for text and signature the first byte and the number of bytes.
fn good(movement: u16, track: u8, set: u32, text: (usize, usize), signature: (usize, usize)) -> ReadSlip {
    let ((text_at, text_len), (signature_at, signature_len)) = (text, signature);
    ReadSlip { status: 0, movement, track, set, text_at, text_len, signature_at, signature_len }
}

/// Of each set one: an order, a slip without a text, and one with the longest.
fn worked() -> &'static [Worked; 3] {
    static ALL: LazyLock<[Worked; 3]> = LazyLock::new(|| {
        [
            Worked::new(
                [0x54, 0x4d, 0x52, 0x01, 0x00, 0x34, 0x12, 0x07, 0x26, 0x00],
                b"Release tram 17 from track 4 at 05:42.".to_vec(),
                good(4660, 7, 128, (10, 38), (48, 11_524)),
            ),
            Worked::new(
                [0x54, 0x4d, 0x52, 0x01, 0x00, 0xfe, 0xff, 0xff, 0x00, 0x00],
                vec![],
                good(65_534, 255, 192, (10, 0), (10, 14_544)),
            ),
            Worked::new(
                [0x54, 0x4d, 0x52, 0x01, 0x00, 0x00, 0x01, 0x00, 0x00, 0x02],
                vec![0xff; 512],
                good(256, 0, 256, (10, 512), (522, 20_330)),
            ),
        ]
    });
    &ALL
}

fn refused(status: u32) -> ReadSlip {
    ReadSlip { status, ..ReadSlip::default() }
}

/// What the reader answers, as it has to be: what the independent implementation does; beside 17, 18 and 19 no fields; with any other status
/// that of verifying what stands before the signature, and never 1, 9 or 13. What is lent, at odd addresses, is only read.
fn read(calls: &Calls, key: &[u8], slip: &[u8]) -> Result<ReadSlip, String> {
    let inputs = [key, slip].map(|bytes| [&[0x5a], bytes, &[0x5a]].concat());
    let lent = inputs.clone();
    let found = (calls.read_slip)(&lent[0][1..=key.len()], &lent[1][1..=slip.len()]);
    let what = |right: &str| format!("a key of {} bytes, a slip of {}: {found:?}, {right}", key.len(), slip.len());
    if black_box(lent) != inputs {
        return Err(what("and something was written"));
    }
    let expected = expect::read_slip(key, slip);
    if found != expected {
        return Err(what(&format!("expected: {expected:?}")));
    }
    let right = match found.status {
        1 | 9 | 13 => return Err(what("which reading never gives")),
        17..=19 => refused(found.status),
        _ => {
            let (message, signature) = slip.split_at(found.signature_at);
            ReadSlip { status: unit::verify(Edition::Printed, found.set, key, message, signature), ..found }
        }
    };
    if found == right { Ok(found) } else { Err(what(&format!("which should be {right:?}"))) }
}

/// As [`read`], where the answer is known.
fn reads(calls: &Calls, key: &[u8], slip: &[u8], right: ReadSlip) -> Tried {
    let found = read(calls, key, slip)?;
    if found == right { Ok(()) } else { Err(format!("a slip of {} bytes: {found:?}, known: {right:?}", slip.len())) }
}

/// What the writer is lent to read.
#[derive(Clone, Copy)]
struct ToWrite<'a> {
    movement: u16,
    track: u8,
    text: &'a [u8],
    signature: &'a [u8],
}

/// The writer's status, and what it leaves in a buffer of so many bytes. Both are as expected, over two patterns of which no byte is alike, and
/// guards are as they were; what is lent to be read is only read.
fn write(calls: &Calls, fields: ToWrite, room: usize) -> Result<(u32, Vec<u8>), String> {
    let ToWrite { movement, track, text, signature } = fields;
    let pattern: Vec<u8> = (0..room + 2 * GUARD).map(|i| (37 * i + 11) as u8).collect();
    let inverse = pattern.iter().map(|byte| !byte).collect();
    let mut answers = vec![];
    for pattern in [pattern, inverse] {
        let (mut found, mut right, lent) = (pattern.clone(), pattern.clone(), (text.to_vec(), signature.to_vec()));
        let status = (calls.write_slip)(movement, track, &lent.0, &lent.1, &mut found[GUARD..GUARD + room]);
        let expected = expect::write_slip(movement, track, text, signature, &mut right[GUARD..GUARD + room]);
        let what = format!("a text of {} bytes, a signature of {}, a buffer of {room}", text.len(), signature.len());
        if status != expected {
            return Err(format!("{what}: status {status}, expected: {expected}"));
        }
        if black_box(lent) != (text.to_vec(), signature.to_vec()) || found != right || status != 0 && found != pattern {
            return Err(format!("{what}: status {status}, and something is written wrong"));
        }
        answers.push((status, found[GUARD..GUARD + room].to_vec()));
    }
    Ok(answers.swap_remove(0))
}

/// As [`write()`], where the status is known.
fn writes(calls: &Calls, fields: ToWrite, room: usize, right: u32) -> Tried {
    let (status, _) = write(calls, fields, room)?;
    let what = || format!("a text of {} bytes, a signature of {}, a buffer of {room}", fields.text.len(), fields.signature.len());
    if status == right { Ok(()) } else { Err(format!("{}: status {status}, known: {right}", what())) }
}

/// The worked slips, written and read.
fn by_hand(calls: &Calls) -> Tried {
    for w in worked() {
        let fields = ToWrite { movement: w.read.movement, track: w.read.track, text: &w.text, signature: w.signature() };
        let (status, written) = write(calls, fields, w.slip.len())?;
        if (status, &written[..10], &written) != (0, &w.leading, &w.slip) {
            return Err(format!("set {}: status {status}, leading bytes {:02x?}", w.read.set, &written[..10]));
        }
        reads(calls, w.key(), &w.slip, w.read)?;
    }
    Ok(())
}

/// The front of a good slip, which goes on behind it in memory.
fn cut(calls: &Calls) -> Tried {
    for w in worked() {
        let statuses = [17, 17, 17, 18, 18, 19, 19, 19, 19, 19, 19, 19];
        let n = w.slip.len();
        let others = [w.read.signature_at, w.read.signature_at + 1, n / 2, n - 2, n - 1].map(|n| (n, 19));
        for (n, status) in statuses.into_iter().enumerate().chain(others) {
            let found = (calls.read_slip)(w.key(), &w.slip[..n]);
            if found != refused(status) {
                return Err(format!("the first {n} bytes of a slip: {found:?}, not {status}"));
            }
        }
    }
    Ok(())
}

/// The leading bytes of a slip with a text of this length.
fn leading(text: u16) -> [u8; 10] {
    let [low, high] = text.to_le_bytes();
    [b'T', b'M', b'R', 1, 0, 9, 8, 7, low, high]
}

/// The bytes behind the text: every number from some below to some above each signature's, none, few and far too many. The longest slip has
/// 20,852 bytes.
fn remainders(calls: &Calls) -> Tried {
    let about = SIGNATURES.into_iter().flat_map(|n| n - 5..=n + 5);
    let far = SIGNATURES.into_iter().flat_map(|n| [n / 2, 2 * n, n + 10, n + 512, n + 65_536]);
    let all: BTreeSet<usize> = about.chain(far).chain([0, 1, 2, 20_853, 1 << 16, 1 << 20]).collect();
    for text in [0, 1, 255, 256, 511, 512] {
        for &rest in &all {
            let slip = [&leading(text)[..], &vec![0xff; usize::from(text) + rest]].concat();
            let set = SIGNATURES.iter().position(|&n| n == rest).map(|number| SETS[number] as u32);
            let key = vec![0; set.map_or(2256, |set| base(set, false).p.vk_bytes())];
            let places = ((10, text.into()), (10 + usize::from(text), rest));
            // ones are no signature
            let ones = |set| ReadSlip { status: 14, ..good(0x0809, 7, set, places.0, places.1) };
            reads(calls, &key, &slip, set.map_or(refused(19), ones))?;
        }
    }
    Ok(())
}

/// Text lengths that are too large, with such a text or without, that reach past the end, or are one off; slips behind each other.
fn text_lengths(calls: &Calls) -> Tried {
    for w in worked() {
        for text in [513, 514, 767, 768, 1023, 1024, 32_768, 65_535] {
            let long = [&leading(text)[..], &vec![0; text.into()], w.signature()].concat();
            reads(calls, w.key(), &long, refused(19))?;
            // as many bytes as would be left in 16 bits
            let rest = (w.read.signature_len + usize::from(text)) % (1 << 16);
            reads(calls, w.key(), &[&leading(text)[..], &vec![0; rest]].concat(), refused(19))?;
        }
        for rest in [0, 1, 2, 255, 256, 510, 511] {
            for text in [rest + 1, rest + 2, 512] {
                reads(calls, w.key(), &[&leading(text)[..], &vec![0; rest.into()]].concat(), refused(19))?;
            }
        }
        let right = w.read.text_len as u16;
        for text in [right.wrapping_sub(1), right + 1] {
            let slip = [&leading(text)[..], &w.slip[10..]].concat();
            reads(calls, w.key(), &slip, refused(19))?;
        }
        for other in worked() {
            reads(calls, w.key(), &[&w.slip[..], &other.slip].concat(), refused(19))?;
        }
    }
    Ok(())
}

/// Each bit of the leading bytes turned: the mark gets 17, the version 18, movement and track 16 with fields as they stand there, and any other
/// text length 19, as no two signature lengths are that near.
fn leading_bits(calls: &Calls) -> Tried {
    for w in worked() {
        for bit in 0..80 {
            let mut slip = w.slip.clone();
            slip[bit / 8] ^= 1 << (bit % 8);
            let right = match bit / 8 {
                0..=2 => refused(17),
                3 | 4 => refused(18),
                5 | 6 => ReadSlip { status: 16, movement: w.read.movement ^ 1 << (bit - 40), ..w.read },
                7 => ReadSlip { status: 16, track: w.read.track ^ 1 << (bit - 56), ..w.read },
                _ => refused(19),
            };
            reads(calls, w.key(), &slip, right).map_err(|fault| format!("bit {bit}: {fault}"))?;
        }
    }
    Ok(())
}

/// A public key with one coefficient put to a value.
fn with_coefficient(p: &Params, key: &[u8], index: usize, value: u64) -> Vec<u8> {
    let mut out = key.to_vec();
    put_bits(&mut out, 8 * p.seed_bytes() + 7 * index, 7, value);
    out
}

/// Keys that are wrong, each with its status.
fn keys(w: &Worked) -> Vec<(u32, Vec<u8>)> {
    let (p, key) = (&w.base().p, w.key());
    let others = SETS.into_iter().filter(|&set| set != p.kappa).map(|set| (3, base(set as u32, false).public_key().to_vec()));
    let lengths = [(3, vec![]), (3, key[1..].to_vec()), (3, [key, &[0]].concat()), (3, w.base().key.bytes.clone())];
    let coefficients = [(0, 124, 16), (0, 125, 4), (600, 126, 4), (p.k * 512 - 1, 127, 4)];
    let coefficients = coefficients.map(|(index, value, status)| (status, with_coefficient(p, key, index, value)));
    let another = (16, base(w.read.set, true).public_key().to_vec());
    others.chain(lengths).chain(coefficients).chain([another]).collect()
}

/// Signatures to put in the place of the slip's, each with its status.
fn signatures(w: &Worked) -> Vec<(u32, Vec<u8>)> {
    let (p, mut random) = (&w.base().p, Random(103));
    let of_norm = |norm| raccoon::write(p, &fields_of_norm(p, norm)).expect("a signature that fits");
    let mut signed = |message: &[u8]| w.base().key.signed(p, message, &mut random);
    let changed = |byte: usize, by: u8| {
        let mut out = w.signature().to_vec();
        out[byte] ^= by;
        out
    };
    vec![
        (14, vec![0xff; p.sig_bytes]),
        (14, changed(p.sig_bytes - 1, 0x80)),
        (15, of_norm(p.b22 + 1)),
        (16, of_norm(p.b22)),
        (16, vec![0; p.sig_bytes]),
        (16, changed(0, 1)),
        (16, signed(&w.text)),
        (16, signed(&w.front()[3..])),
        (16, signed(&w.slip)),
        (0, signed(w.front())),
    ]
}

/// Wrong keys and signatures: all fields stand beside each verdict.
fn verdicts(calls: &Calls) -> Tried {
    for w in worked() {
        for (status, key) in keys(w) {
            reads(calls, &key, &w.slip, ReadSlip { status, ..w.read })?;
        }
        for (status, signature) in signatures(w) {
            reads(calls, w.key(), &w.around(&signature), ReadSlip { status, ..w.read })?;
        }
    }
    Ok(())
}

/// Two faults in one call: the check that comes first decides.
fn first_no(calls: &Calls) -> Tried {
    type Fault = fn(&Worked, &mut Vec<u8>, &mut Vec<u8>);
    let faults: [(u32, Fault); 8] = [
        (17, |_, _, slip| slip[2] = b'r'),
        (18, |_, _, slip| slip[3] = 2),
        (19, |_, _, slip| slip[9] |= 4),
        (19, |_, _, slip| slip.push(0)),
        (3, |_, key, _| key.push(0)),
        (4, |w, key, _| *key = with_coefficient(&w.base().p, key, 600, 127)),
        (14, |_, _, slip| *slip.last_mut().unwrap() |= 0x80),
        (16, |_, _, slip| slip[7] ^= 1),
    ];
    for w in worked() {
        for (i, (first, fault)) in faults.iter().enumerate() {
            for (_, later) in &faults[i + 1..] {
                let (mut key, mut slip) = (w.key().to_vec(), w.slip.clone());
                later(w, &mut key, &mut slip);
                fault(w, &mut key, &mut slip);
                let found = read(calls, &key, &slip)?;
                if found.status != *first {
                    return Err(format!("set {}: {found:?}, not {first}", w.read.set));
                }
            }
        }
    }
    Ok(())
}

/// The writer's 8: only a buffer of the very length is written to.
fn buffers(calls: &Calls) -> Tried {
    for (w, text) in worked().iter().flat_map(|w| [0, 1, 255, 256, 511, 512].map(|text| (w, text))) {
        let text = vec![0x31; text];
        let fields = ToWrite { movement: 300, track: 3, text: &text, signature: w.signature() };
        let right = slip_bytes(&w.base().p, text.len());
        writes(calls, fields, right, 0)?;
        let others = SIGNATURES.into_iter().map(|n| 10 + text.len() + n).filter(|&n| n != right);
        for room in [0, 1, 9, 10, right - text.len() - 10, right - 10, right - 1, right + 1, 2 * right].into_iter().chain(others)
        {
            writes(calls, fields, room, 8)?;
        }
    }
    Ok(())
}

/// The writer's 19, whatever the buffer: texts over 512 bytes, and signatures about those of a set.
fn too_long(calls: &Calls) -> Tried {
    for w in worked() {
        let mut all: Vec<(usize, usize, u32)> = vec![(512, w.read.signature_len, 0)];
        all.extend([513, 514, 1024, 65_535, 65_536, 65_536 + 38, 70_000].map(|text| (text, w.read.signature_len, 19)));
        let about = (1..=5).flat_map(|by| [w.read.signature_len - by, w.read.signature_len + by]);
        all.extend(about.chain([0, 1, 2 * w.read.signature_len, 65_536 + w.read.signature_len]).map(|n| (38, n, 19)));
        for (text, signature, status) in all {
            let (text, signature) = (vec![0x32; text], vec![0x33; signature]);
            let fields = ToWrite { movement: 1, track: 2, text: &text, signature: &signature };
            let right = 10 + text.len() + signature.len();
            writes(calls, fields, right, status)?;
            let in_16_bits = 10 + text.len() % 65_536 + signature.len() % 65_536;
            for room in [right - 1, right + 1, 0, in_16_bits].into_iter().filter(|&room| room != right) {
                writes(calls, fields, room, if status == 0 { 8 } else { 19 })?;
            }
        }
    }
    Ok(())
}

/// Numbers at their edges, the lower byte first, with signatures of any kind.
fn numbers(calls: &Calls) -> Tried {
    let mut random = Random(104);
    let movements = [0, 1, 255, 256, 257, 32_767, 32_768, 65_280, 65_535];
    for (movement, track) in movements.into_iter().flat_map(|movement| [0, 1, 127, 128, 255].map(|track| (movement, track))) {
        for signature in [vec![0; SIGNATURES[0]], vec![0xff; SIGNATURES[1]], random.bytes(SIGNATURES[2])] {
            let fields = ToWrite { movement, track, text: b"text", signature: &signature };
            let (status, slip) = write(calls, fields, 14 + signature.len())?;
            let right = [b'T', b'M', b'R', 1, 0, (movement % 256) as u8, (movement / 256) as u8, track, 4, 0];
            if (status, &slip[..10], &slip[10..14], &slip[14..]) != (0, &right, b"text", &signature[..]) {
                return Err(format!("movement {movement}, track {track}: status {status}, {:02x?}", &slip[..14]));
            }
            let found = read(calls, &[], &slip)?;
            if (found.status, found.movement, found.track) != (3, movement, track) {
                return Err(format!("movement {movement}, track {track}: {found:?}"));
            }
        }
    }
    Ok(())
}

/// What is written reads back to its fields: every text length at every set, the other fields random.
fn written_and_read(calls: &Calls) -> Tried {
    let mut random = Random(105);
    for (set, length) in SETS.into_iter().flat_map(|set| (0..=MAX_TEXT).map(move |length| (set, length))) {
        let p = &base(set as u32, false).p;
        let (text, signature) = (random.bytes(length), random.bytes(p.sig_bytes));
        let fields = ToWrite { movement: random.word() as u16, track: random.word() as u8, text: &text, signature: &signature };
        let (status, slip) = write(calls, fields, slip_bytes(p, length))?;
        // lent no key, the verifier ends with 3
        let found = read(calls, &[], &slip)?;
        let parts = (&slip[found.text_at..][..found.text_len], &slip[found.signature_at..][..found.signature_len]);
        if (status, found.status, found.movement, found.track) != (0, 3, fields.movement, fields.track)
            || (found.set as usize, parts) != (set, (&text[..], &signature[..]))
        {
            return Err(format!("set {set}, a text of {length} bytes: {found:?}"));
        }
    }
    Ok(())
}

/// What reads, whatever its verdict, writes back to its bytes; bytes that begin and end as they like.
fn read_and_written(calls: &Calls) -> Tried {
    let (mut random, mut met) = (Random(106), BTreeSet::new());
    for turn in 0..600 {
        let (length, signature) = (random.below(514), SIGNATURES[random.below(3)]);
        let mut slip = random.bytes(10 + length + signature + usize::from(turn % 16 == 0));
        slip[..5].copy_from_slice(b"TMR\x01\0");
        slip[8..10].copy_from_slice(&(length as u16).to_le_bytes());
        let key = vec![0; [0, 2256, 3160, 4064][random.below(4)]];
        let found = read(calls, &key, &slip)?;
        met.insert(found.status);
        if found.status == 19 {
            continue;
        }
        let (text, signature) = (&slip[found.text_at..][..found.text_len], &slip[found.signature_at..][..found.signature_len]);
        let fields = ToWrite { movement: found.movement, track: found.track, text, signature };
        let (status, written) = write(calls, fields, slip.len())?;
        if status != 0 || written != slip {
            return Err(format!("{found:?}, written with status {status}"));
        }
    }
    if met == BTreeSet::from([3, 14, 19]) { Ok(()) } else { Err(format!("only {met:?} were met")) }
}

/// All that is tried, the quick ones first.
const ALL: [fn(&Calls) -> Tried; 12] = [
    by_hand,
    cut,
    buffers,
    too_long,
    numbers,
    text_lengths,
    remainders,
    first_no,
    verdicts,
    leading_bits,
    written_and_read,
    read_and_written,
];

#[test]
fn slips_by_hand() {
    assert_eq!(by_hand(&UNIT), Ok(()));
}

#[test]
fn refusals_of_the_reader() {
    for tried in [cut, text_lengths, remainders, leading_bits, first_no] {
        assert_eq!(tried(&UNIT), Ok(()));
    }
}

#[test]
fn fields_beside_every_verdict() {
    assert_eq!(verdicts(&UNIT), Ok(()));
}

#[test]
fn refusals_of_the_writer() {
    for tried in [buffers, too_long, numbers] {
        assert_eq!(tried(&UNIT), Ok(()));
    }
}

#[test]
fn both_ways() {
    for tried in [written_and_read, read_and_written] {
        assert_eq!(tried(&UNIT), Ok(()));
    }
}

/// The way of a host: written around zeros, its front signed, written again. Seeds, text and the SHA-256 of the slip are known.
#[test]
fn known_slip() {
    let p = Params::new(128, 1, Edition::Printed).unwrap();
    let (mask, noise, text) = (xof("mask", 32), xof("noise 128-1", p.noise_bytes()), xof("text", 100));
    let key = keygen(&p, &xof("tape 128-1", p.keygen_bytes()), Masks::Seed(&mask)).unwrap();
    assert_eq!(format!("0 {}", digest(&key)), known("128-1 keygen"));
    let (mut signature, mut work, mut slip) = (vec![0; p.sig_bytes], vec![0; p.work_words()], vec![0; slip_bytes(&p, 100)]);
    assert_eq!(unit::write_slip(4660, 7, &text, &signature, &mut slip), 0);
    let input = Signing {
        set: 128,
        shares: 1,
        attempts: 1,
        key: Key::Packed(&key),
        message: &slip[..110],
        noise: Noise::Seeds(&noise),
        mask_seeds: &mask,
    };
    assert_eq!(unit::sign(p.edition, &input, &mut signature, &mut work).status, 0);
    assert_eq!(unit::write_slip(4660, 7, &text, &signature, &mut slip), 0);
    assert_eq!(unit::read_slip(&key[..p.vk_bytes()], &slip).status, 0);
    assert_eq!(format!("0 {}", digest(&slip)), known("128-1 slip"));
    // the independent implementation by itself
    let (front, words) = (slip::front(4660, 7, &text).unwrap(), expand(&p, &key).unwrap());
    let attempt = (Noise::Seeds(&noise), Masks::Seed(&mask));
    let signature = sign(&p, &with_digest(&p, &key[..p.vk_bytes()]), &words, &front, &[attempt]).2.unwrap();
    assert_eq!(format!("0 {}", digest(&slip::write(4660, 7, &text, &signature).unwrap())), known("128-1 slip"));
}

type Reader = fn(&[u8], &[u8]) -> ReadSlip;
type Writer = fn(u16, u8, &[u8], &[u8], &mut [u8]) -> u32;

/// The unit's answer to a slip that is changed before, where it has leading bytes.
fn to_changed(key: &[u8], slip: &[u8], change: fn(&mut [u8])) -> ReadSlip {
    let mut slip = slip.to_vec();
    if slip.len() >= 10 {
        change(&mut slip);
    }
    unit::read_slip(key, &slip)
}

/// The unit's fields with another verdict: in this edition, on the bytes from here to the signature.
fn with_verdict(key: &[u8], slip: &[u8], edition: Edition, from: usize) -> ReadSlip {
    match unit::read_slip(key, slip) {
        read if read.set > 0 => {
            let (message, signature) = (&slip[from..read.signature_at], &slip[read.signature_at..]);
            ReadSlip { status: unit::verify(edition, read.set, key, message, signature), ..read }
        }
        read => read,
    }
}

/// A slip with a text of 513 bytes, read; nothing where it is no such slip.
fn read_513(key: &[u8], slip: &[u8]) -> Option<ReadSlip> {
    let number = SIGNATURES.iter().position(|&n| 523 + n == slip.len())?;
    (slip.starts_with(b"TMR\x01\0") && slip[8..10] == [1, 2]).then_some(())?;
    let (set, (message, signature)) = (SETS[number] as u32, slip.split_at(523));
    let status = unit::verify(Edition::Printed, set, key, message, signature);
    Some(ReadSlip { status, ..good(0x0809, 7, set, (10, 513), (523, signature.len())) })
}

/// A slip up to the end of the first signature that leaves something behind it.
fn without_rest(slip: &[u8]) -> Option<&[u8]> {
    let text = usize::from(u16::from_le_bytes(slip.get(8..10)?.try_into().ok()?));
    SIGNATURES.iter().find_map(|n| slip.get(..10 + text + n).filter(|front| front.len() < slip.len()))
}

fn wrong_answers() -> Vec<(&'static str, Reader)> {
    vec![
        ("reads the movement number big-endian", |key, slip| {
            let read = unit::read_slip(key, slip);
            ReadSlip { movement: read.movement.swap_bytes(), ..read }
        }),
        ("brings fields with 19", |key, slip| match unit::read_slip(key, slip) {
            read if read.status == 19 && slip.len() >= 10 => ReadSlip { movement: 0x0809, ..read },
            read => read,
        }),
        ("brings no fields with a refusal of the verifier", |key, slip| match unit::read_slip(key, slip) {
            read if read.status != 0 => refused(read.status),
            read => read,
        }),
        ("verifies the text alone", |key, slip| with_verdict(key, slip, Edition::Printed, 10)),
        ("verifies in the other edition", |key, slip| with_verdict(key, slip, Edition::Kat, 0)),
        ("tells 13 for a signature of no set", |key, slip| match unit::read_slip(key, slip) {
            read if read.status == 19 && slip.len() > 10_000 => refused(13),
            read => read,
        }),
        ("goes by the set of the key", |key, slip| match unit::read_slip(key, slip) {
            read if read.status == 3 && [2256, 3160, 4064].contains(&key.len()) => refused(19),
            read => read,
        }),
    ]
}

fn wrong_checks() -> Vec<(&'static str, Reader)> {
    vec![
        ("reads the text length big-endian", |key, slip| to_changed(key, slip, |slip| slip.swap(8, 9))),
        ("looks at one byte of the version", |key, slip| to_changed(key, slip, |slip| slip[4] = 0)),
        ("looks at two letters of the mark", |key, slip| to_changed(key, slip, |slip| slip[2] = b'R')),
        ("accepts a text of 513 bytes", |key, slip| read_513(key, slip).unwrap_or_else(|| unit::read_slip(key, slip))),
        ("refuses a text of 512 bytes", |key, slip| match unit::read_slip(key, slip) {
            read if read.text_len == 512 => refused(19),
            read => read,
        }),
        ("asks for the leading bytes first", |key, slip| if slip.len() < 10 { refused(19) } else { unit::read_slip(key, slip) }),
        ("asks for the version before the mark", |key, slip| match slip.get(3..5) {
            Some([1, 0]) | None => unit::read_slip(key, slip),
            _ => refused(18),
        }),
        ("asks for the key first", |key, slip| match unit::read_slip(key, slip) {
            read if read.status == 19 && ![2256, 3160, 4064].contains(&key.len()) => refused(3),
            read => read,
        }),
        ("leaves out what is behind the signature", |key, slip| match unit::read_slip(key, slip) {
            read if read.status == 19 => without_rest(slip).map_or(read, |slip| unit::read_slip(key, slip)),
            read => read,
        }),
        ("reads 16 bits of the slip's length", |key, slip| unit::read_slip(key, &slip[..slip.len() % (1 << 16)])),
        (
            "reads a byte behind a mark cut short",
            |key, slip| if slip == b"TM" { refused(18) } else { unit::read_slip(key, slip) },
        ),
    ]
}

fn wrong_bytes() -> Vec<(&'static str, Writer)> {
    vec![
        ("writes the movement number big-endian", |m, t, text, signature, slip| {
            unit::write_slip(m.swap_bytes(), t, text, signature, slip)
        }),
        ("writes the text length big-endian", |m, t, text, signature, slip| {
            let status = unit::write_slip(m, t, text, signature, slip);
            if status == 0 {
                slip.swap(8, 9);
            }
            status
        }),
        ("leaves the track as it was", |m, t, text, signature, slip| {
            let track = slip.get(7).copied().unwrap_or(t);
            unit::write_slip(m, track, text, signature, slip)
        }),
        ("writes at a refusal", |m, t, text, signature, slip| {
            let status = unit::write_slip(m, t, text, signature, slip);
            if status == 8 {
                slip.iter_mut().zip(b"TMR").for_each(|(byte, letter)| *byte = *letter);
            }
            status
        }),
    ]
}

fn wrong_lengths() -> Vec<(&'static str, Writer)> {
    vec![
        ("asks for the buffer first", |m, t, text, signature, slip| match slip.len() {
            n if n != 10 + text.len() + signature.len() => 8,
            _ => unit::write_slip(m, t, text, signature, slip),
        }),
        ("takes a buffer that is too long", |m, t, text, signature, slip| {
            let room = slip.len().min(10 + text.len() + signature.len());
            unit::write_slip(m, t, text, signature, &mut slip[..room])
        }),
        ("writes a text of 513 bytes", |m, t, text, signature, slip| match text.len() {
            513 if slip.len() == 523 + signature.len() => {
                slip.copy_from_slice(&[&leading(513)[..], text, signature].concat());
                0
            }
            _ => unit::write_slip(m, t, text, signature, slip),
        }),
        ("cuts a text that is too long", |m, t, text, signature, slip| {
            unit::write_slip(m, t, &text[..text.len().min(512)], signature, slip)
        }),
        ("counts a text with 16 bits", |m, t, text, signature, slip| {
            unit::write_slip(m, t, &text[..text.len() % (1 << 16)], signature, slip)
        }),
        ("refuses a signature of zeros", |m, t, text, signature, slip| {
            if signature.iter().all(|&byte| byte == 0) { 19 } else { unit::write_slip(m, t, text, signature, slip) }
        }),
    ]
}

#[test]
fn wrong_units_are_noticed() {
    let readers = wrong_answers().into_iter().chain(wrong_checks()).map(|(what, read_slip)| (what, Calls { read_slip, ..UNIT }));
    let writers = wrong_bytes().into_iter().chain(wrong_lengths()).map(|(what, write_slip)| (what, Calls { write_slip, ..UNIT }));
    for (what, calls) in readers.chain(writers) {
        assert!(ALL.iter().any(|tried| tried(&calls).is_err()), "a unit that {what}");
    }
}
