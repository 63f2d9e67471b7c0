//! A case: one call with all that it is lent. It is put to the unit and to the expectation, and the two answers are compared:
//! status, attempts, the numbers told, every element of every buffer, the guards around them, and that what is lent to be read was only read.

use crate::layout::{digest_is_true, share_words, words_below_q};
use crate::random::Random;
use crate::unit::{Bits, Key, Signed, Signing, SigningLengths};
use crate::{expect, unit};
use independent::raccoon::{Edition, Noise, Params};
use independent::ring::N;

/// The calls: one for each export of the unit.
#[derive(Clone, Copy, PartialEq, Eq, PartialOrd, Ord, Debug)]
pub enum Kind {
    Keygen,
    ExpandKey,
    RefreshKey,
    Sign,
    SignExpanded,
    SignExplicit,
    SignExpandedExplicit,
    Verify,
    SampleUniform,
    SampleChallenge,
    KatKeygen,
    KatExpandKey,
    KatSign,
    KatVerify,
    Lengths,
    SignatureBits,
    ReadSlip,
    WriteSlip,
}

use Kind::*;

pub const KINDS: [Kind; 18] = [
    Keygen,
    ExpandKey,
    RefreshKey,
    Sign,
    SignExpanded,
    SignExplicit,
    SignExpandedExplicit,
    Verify,
    SampleUniform,
    SampleChallenge,
    KatKeygen,
    KatExpandKey,
    KatSign,
    KatVerify,
    Lengths,
    SignatureBits,
    ReadSlip,
    WriteSlip,
];

/// What has a length: first what is lent to be read, then what is lent to be written.
#[derive(Clone, Copy, PartialEq, Eq, Debug)]
pub enum Field {
    /// A signing key, the bytes of an expanded key, or a public key.
    Key,
    /// The words of an expanded key.
    Words,
    Message,
    Signature,
    /// Seeds of key generation, noise seeds, or the bytes that a sampler draws from.
    Seeds,
    /// Explicit noise.
    Noise,
    MaskSeeds,
    Hint,
    Response,
    /// The text of a slip that is to be written.
    Text,
    Slip,
    ResultBytes,
    ResultWords,
    ResultSigns,
    Work,
}

impl Kind {
    pub fn edition(self) -> Edition {
        if matches!(self, KatKeygen | KatExpandKey | KatSign | KatVerify) { Edition::Kat } else { Edition::Printed }
    }

    pub fn generates(self) -> bool {
        matches!(self, Keygen | KatKeygen)
    }

    pub fn signs(self) -> bool {
        matches!(self, Sign | SignExpanded | SignExplicit | SignExpandedExplicit | KatSign)
    }

    pub fn verifies(self) -> bool {
        matches!(self, Verify | KatVerify | ReadSlip)
    }

    pub fn samples(self) -> bool {
        matches!(self, SampleUniform | SampleChallenge)
    }

    /// Does it take a set?
    pub fn takes_set(self) -> bool {
        !matches!(self, SampleUniform | ReadSlip | WriteSlip)
    }

    /// Does it take a share count?
    pub fn takes_shares(self) -> bool {
        !self.samples() && !self.verifies() && !matches!(self, SignatureBits | WriteSlip)
    }

    /// Does it take an expanded key?
    pub fn takes_expanded(self) -> bool {
        matches!(self, RefreshKey | SignExpanded | SignExpandedExplicit)
    }

    /// The statuses that it can give: 0 and its checks, but for 10 and 11 outside the samplers and for 20, for which no input is known.
    pub fn statuses(self) -> &'static [u32] {
        match self {
            Keygen | KatKeygen => &[0, 1, 2, 7, 8],
            ExpandKey | KatExpandKey => &[0, 1, 2, 3, 4, 5, 8],
            RefreshKey => &[0, 1, 2, 3, 4, 5, 7, 8],
            Sign | SignExpanded | SignExplicit | SignExpandedExplicit | KatSign => &[0, 1, 2, 3, 4, 5, 6, 7, 8, 9, 12],
            Verify | KatVerify => &[0, 1, 3, 4, 9, 13, 14, 15, 16],
            SampleUniform => &[0, 8, 10],
            SampleChallenge => &[0, 1, 8, 11],
            Lengths => &[0, 1, 2, 6],
            SignatureBits => &[0, 1, 13],
            ReadSlip => &[0, 3, 4, 14, 15, 16, 17, 18, 19],
            WriteSlip => &[0, 8, 19],
        }
    }

    pub fn fields(self) -> &'static [Field] {
        use Field::*;
        match self {
            Keygen | KatKeygen => &[Seeds, MaskSeeds, ResultBytes, Work],
            ExpandKey | KatExpandKey => &[Key, ResultBytes, ResultWords],
            RefreshKey => &[Key, Words, MaskSeeds, ResultBytes, ResultWords],
            Sign | KatSign => &[Key, Message, Seeds, MaskSeeds, ResultBytes, Work],
            SignExpanded => &[Key, Words, Message, Seeds, MaskSeeds, ResultBytes, Work],
            SignExplicit => &[Key, Message, Noise, MaskSeeds, ResultBytes, Work],
            SignExpandedExplicit => &[Key, Words, Message, Noise, MaskSeeds, ResultBytes, Work],
            Verify | KatVerify => &[Key, Message, Signature],
            SampleUniform => &[Seeds, ResultWords],
            SampleChallenge => &[Seeds, ResultSigns],
            Lengths => &[],
            SignatureBits => &[Hint, Response],
            ReadSlip => &[Key, Slip],
            WriteSlip => &[Text, Signature, ResultBytes],
        }
    }

    /// The length that a field must have; for a message, a text and a sampler's bytes the largest that is made use of, for a slip that with
    /// the longest text.
    pub fn length(self, field: Field, p: &Params, attempts: usize) -> usize {
        match (field, self) {
            (Field::Key, ExpandKey | KatExpandKey | Sign | SignExplicit | KatSign) => p.sk_bytes(),
            (Field::Key, Verify | KatVerify | ReadSlip) => p.vk_bytes(),
            (Field::Key, _) => p.expanded_bytes(),
            (Field::Message, _) => 4096,
            (Field::Signature, _) => p.sig_bytes,
            (Field::Seeds, SampleUniform) => 777 * 7,
            (Field::Seeds, SampleChallenge) => 1088 * 2,
            (Field::Seeds, Keygen | KatKeygen) => p.keygen_bytes(),
            (Field::Seeds, _) => attempts * p.noise_bytes(),
            (Field::Noise, _) => attempts * p.noise_words(),
            (Field::MaskSeeds, _) => {
                if self.signs() {
                    32 * attempts
                } else {
                    32
                }
            }
            (Field::Hint, _) => p.k * N,
            (Field::Response, _) => p.l * N,
            (Field::Text, _) => MAX_TEXT,
            (Field::Slip, _) | (Field::ResultBytes, WriteSlip) => slip_bytes(p, MAX_TEXT),
            (Field::ResultBytes, Keygen | KatKeygen) => p.sk_bytes(),
            (Field::ResultBytes, ExpandKey | KatExpandKey | RefreshKey) => p.expanded_bytes(),
            (Field::ResultBytes, _) => p.sig_bytes,
            (Field::ResultWords, SampleUniform) | (Field::ResultSigns, _) => N,
            (Field::Words | Field::ResultWords, _) => share_words(p),
            (Field::Work, _) => p.work_words(),
        }
    }
}

/// The most bytes of a slip's text.
pub const MAX_TEXT: usize = 512;

/// The bytes of a slip with a text of so many.
pub fn slip_bytes(p: &Params, text: usize) -> usize {
    10 + text + p.sig_bytes
}

/// Numbers, and what a call is lent to be read. What a call does not take is empty.
#[derive(Clone, PartialEq, Default)]
pub struct Inputs {
    pub set: u32,
    pub shares: u32,
    pub attempts: u32,
    pub movement: u16,
    pub track: u8,
    pub key: Vec<u8>,
    pub words: Vec<u64>,
    pub message: Vec<u8>,
    pub signature: Vec<u8>,
    pub seeds: Vec<u8>,
    pub noise: Vec<u64>,
    pub mask_seeds: Vec<u8>,
    pub hint: Vec<i8>,
    pub response: Vec<i64>,
    pub text: Vec<u8>,
    pub slip: Vec<u8>,
}

/// So many elements before and behind each buffer are not lent. The number is odd, so that bytes stand at odd addresses.
pub const GUARD: usize = 17;

/// What a call is lent to be written, each with its guards.
#[derive(Clone, PartialEq, Default)]
pub struct Buffers {
    pub bytes: Vec<u8>,
    pub words: Vec<u64>,
    pub signs: Vec<i8>,
    pub work: Vec<u64>,
}

fn lent<T>(guarded: &mut [T]) -> &mut [T] {
    let end = guarded.len() - GUARD;
    &mut guarded[GUARD..end]
}

/// An answer, with the buffers as they were left.
#[derive(Clone)]
pub struct Answer {
    pub status: u32,
    pub attempts: u32,
    /// The lengths of a signing call, the bits of a signature, or the fields of a slip; else 0.
    pub told: [u64; 7],
    pub buffers: Buffers,
}

/// The functions behind the calls: those of the unit, or others of the same form.
#[derive(Clone, Copy)]
pub struct Calls {
    pub keygen: fn(Edition, u32, u32, &[u8], &[u8], &mut [u8], &mut [u64]) -> u32,
    pub expand_key: fn(Edition, u32, u32, &[u8], &mut [u8], &mut [u64]) -> u32,
    pub refresh_key: fn(u32, u32, (&[u8], &[u64]), &[u8], &mut [u8], &mut [u64]) -> u32,
    pub sign: fn(Edition, &Signing, &mut [u8], &mut [u64]) -> Signed,
    pub verify: fn(Edition, u32, &[u8], &[u8], &[u8]) -> u32,
    pub sample_uniform: fn(&[u8], &mut [u64]) -> u32,
    pub sample_challenge: fn(u32, &[u8], &mut [i8]) -> u32,
    pub lengths: fn(u32, u32, u32) -> SigningLengths,
    pub signature_bits: fn(u32, &[i8], &[i64]) -> Bits,
    pub read_slip: fn(&[u8], &[u8]) -> unit::ReadSlip,
    pub write_slip: fn(u16, u8, &[u8], &[u8], &mut [u8]) -> u32,
}

pub const UNIT: Calls = Calls {
    keygen: unit::keygen,
    expand_key: unit::expand_key,
    refresh_key: unit::refresh_key,
    sign: unit::sign,
    verify: unit::verify,
    sample_uniform: unit::sample_uniform,
    sample_challenge: unit::sample_challenge,
    lengths: unit::lengths,
    signature_bits: unit::signature_bits,
    read_slip: unit::read_slip,
    write_slip: unit::write_slip,
};

pub const EXPECTED: Calls = Calls {
    keygen: expect::keygen,
    expand_key: expect::expand_key,
    refresh_key: expect::refresh_key,
    sign: expect::sign,
    verify: expect::verify,
    sample_uniform: expect::sample_uniform,
    sample_challenge: expect::sample_challenge,
    lengths: expect::lengths,
    signature_bits: expect::signature_bits,
    read_slip: expect::read_slip,
    write_slip: expect::write_slip,
};

/// One call with all that it is lent.
#[derive(Clone)]
pub struct Case {
    pub kind: Kind,
    pub inputs: Inputs,
    pub buffers: Buffers,
}

impl Case {
    /// A case with buffers of the right lengths, whose contents and guards are random.
    pub fn new(kind: Kind, p: &Params, inputs: Inputs, random: &mut Random) -> Case {
        let mut case = Case { kind, inputs, buffers: Buffers::default() };
        for field in [Field::ResultBytes, Field::ResultWords, Field::ResultSigns, Field::Work] {
            let n = if kind.fields().contains(&field) { kind.length(field, p, 1) } else { 0 };
            case.resize(field, n, random);
        }
        case
    }

    /// An input of bytes.
    pub fn bytes(&mut self, field: Field) -> Option<&mut Vec<u8>> {
        let i = &mut self.inputs;
        match field {
            Field::Key => Some(&mut i.key),
            Field::Message => Some(&mut i.message),
            Field::Signature => Some(&mut i.signature),
            Field::Seeds => Some(&mut i.seeds),
            Field::MaskSeeds => Some(&mut i.mask_seeds),
            Field::Text => Some(&mut i.text),
            Field::Slip => Some(&mut i.slip),
            _ => None,
        }
    }

    /// How many elements of a field are lent.
    pub fn length(&self, field: Field) -> usize {
        let (i, b) = (&self.inputs, &self.buffers);
        match field {
            Field::Key => i.key.len(),
            Field::Words => i.words.len(),
            Field::Message => i.message.len(),
            Field::Signature => i.signature.len(),
            Field::Seeds => i.seeds.len(),
            Field::Noise => i.noise.len(),
            Field::MaskSeeds => i.mask_seeds.len(),
            Field::Hint => i.hint.len(),
            Field::Response => i.response.len(),
            Field::Text => i.text.len(),
            Field::Slip => i.slip.len(),
            Field::ResultBytes => b.bytes.len() - 2 * GUARD,
            Field::ResultWords => b.words.len() - 2 * GUARD,
            Field::ResultSigns => b.signs.len() - 2 * GUARD,
            Field::Work => b.work.len() - 2 * GUARD,
        }
    }

    /// Gives a field another length. What an input gains is random, words below q, coefficients of any size; a buffer is filled anew.
    pub fn resize(&mut self, field: Field, n: usize, random: &mut Random) {
        let all = n + 2 * GUARD;
        match field {
            Field::Words => resize_words(&mut self.inputs.words, n, random),
            Field::Noise => resize_words(&mut self.inputs.noise, n, random),
            Field::Hint => self.inputs.hint.resize_with(n, || random.any_size() as i8),
            Field::Response => self.inputs.response.resize_with(n, || random.any_size()),
            Field::ResultBytes => self.buffers.bytes = random.bytes(all),
            Field::ResultWords => self.buffers.words = (0..all).map(|_| random.word()).collect(),
            Field::ResultSigns => self.buffers.signs = (0..all).map(|_| random.word() as i8).collect(),
            Field::Work => self.buffers.work = (0..all).map(|_| random.word()).collect(),
            _ => {
                let bytes = self.bytes(field).expect("an input of bytes");
                bytes.truncate(n);
                bytes.extend(random.bytes(n - bytes.len()));
            }
        }
    }

    /// The answer of the calls, to inputs in allocations of their own, each of just its length; an error where one was written.
    pub fn put(&self, calls: &Calls) -> Result<Answer, String> {
        let (inputs, mut buffers) = (self.inputs.clone(), self.buffers.clone());
        let (i, edition) = (&inputs, self.kind.edition());
        let (bytes, words, work) = (lent(&mut buffers.bytes), lent(&mut buffers.words), lent(&mut buffers.work));
        let (mut attempts, mut told) = (0, [0; 7]);
        let status = match self.kind {
            Keygen | KatKeygen => (calls.keygen)(edition, i.set, i.shares, &i.seeds, &i.mask_seeds, bytes, work),
            ExpandKey | KatExpandKey => (calls.expand_key)(edition, i.set, i.shares, &i.key, bytes, words),
            RefreshKey => (calls.refresh_key)(i.set, i.shares, (&i.key, &i.words), &i.mask_seeds, bytes, words),
            Verify | KatVerify => (calls.verify)(edition, i.set, &i.key, &i.message, &i.signature),
            SampleUniform => (calls.sample_uniform)(&i.seeds, words),
            SampleChallenge => (calls.sample_challenge)(i.set, &i.seeds, lent(&mut buffers.signs)),
            Lengths => {
                let lengths = (calls.lengths)(i.set, i.shares, i.attempts);
                told[..3].copy_from_slice(&[lengths.noise_seed_bytes, lengths.mask_seed_bytes, lengths.work_words]);
                lengths.status
            }
            SignatureBits => {
                let counted = (calls.signature_bits)(i.set, &i.hint, &i.response);
                told[0] = counted.bits;
                counted.status
            }
            ReadSlip => {
                let read = (calls.read_slip)(&i.key, &i.slip);
                told = said(&read);
                read.status
            }
            WriteSlip => (calls.write_slip)(i.movement, i.track, &i.text, &i.signature, bytes),
            _ => {
                let signed = (calls.sign)(edition, &self.signing(i), bytes, work);
                attempts = signed.attempts;
                signed.status
            }
        };
        only_read(&inputs, &self.inputs)?;
        Ok(Answer { status, attempts, told, buffers })
    }

    fn signing<'a>(&self, i: &'a Inputs) -> Signing<'a> {
        let key = if self.kind.takes_expanded() { Key::Expanded(&i.key, &i.words) } else { Key::Packed(&i.key) };
        let explicit = self.kind.fields().contains(&Field::Noise);
        let noise = if explicit { Noise::Words(&i.noise) } else { Noise::Seeds(&i.seeds) };
        Signing { set: i.set, shares: i.shares, attempts: i.attempts, key, message: &i.message, noise, mask_seeds: &i.mask_seeds }
    }

    /// Puts the case to the calls, whose answer must be the expected one; what they sign they must also verify, what they write as a slip
    /// they must read back, and what they read of one write back. Gives status and attempts.
    pub fn check(&self, calls: &Calls) -> Result<(u32, u32), String> {
        let (mut found, expected) = (self.put(calls)?, self.put(&EXPECTED)?);
        compare(&found, &expected)?;
        match self.kind {
            kind if kind.signs() && found.status == 0 => self.check_signed(calls, lent(&mut found.buffers.bytes))?,
            WriteSlip if found.status == 0 => self.check_written(calls, lent(&mut found.buffers.bytes))?,
            ReadSlip if ![17, 18, 19].contains(&found.status) => self.check_read(calls)?,
            _ => {}
        }
        Ok((found.status, found.attempts))
    }

    /// Do the calls verify what they signed? With a false digest they must give 16.
    fn check_signed(&self, calls: &Calls, signature: &[u8]) -> Result<(), String> {
        let (i, edition) = (&self.inputs, self.kind.edition());
        let p = Params::new(i.set as usize, 1, edition).ok_or("signed with a set that there is not")?;
        let verified = (calls.verify)(edition, i.set, &i.key[..p.vk_bytes()], &i.message, signature);
        let right = if self.kind.takes_expanded() && !digest_is_true(&p, &i.key) { 16 } else { 0 };
        if verified == right { Ok(()) } else { Err(format!("signed, but verified with status {verified}, expected: {right}")) }
    }

    /// Do the calls read what they wrote? Lent no key, they give the fields with 3.
    fn check_written(&self, calls: &Calls, slip: &[u8]) -> Result<(), String> {
        let (i, read) = (&self.inputs, (calls.read_slip)(&[], slip));
        let fields = (read.status, read.movement, read.track, parts(slip, &read));
        let lent = (3, i.movement, i.track, Some((&i.text[..], &i.signature[..])));
        if fields == lent { Ok(()) } else { Err(format!("written, but read as {read:?}")) }
    }

    /// Do the calls write what they read?
    fn check_read(&self, calls: &Calls) -> Result<(), String> {
        let slip = &self.inputs.slip;
        let (read, mut written) = ((calls.read_slip)(&[], slip), vec![0; slip.len()]);
        let (text, signature) = parts(slip, &read).ok_or_else(|| format!("read as {read:?}"))?;
        let status = (calls.write_slip)(read.movement, read.track, text, signature, &mut written);
        if status == 0 && written == *slip { Ok(()) } else { Err(format!("read, but written with status {status}")) }
    }
}

/// The text and the signature of a slip; nothing where their places are not in it.
fn parts<'a>(slip: &'a [u8], read: &unit::ReadSlip) -> Option<(&'a [u8], &'a [u8])> {
    let part = |at: usize, n: usize| slip.get(at..)?.get(..n);
    Some((part(read.text_at, read.text_len)?, part(read.signature_at, read.signature_len)?))
}

/// The fields of a slip as numbers.
fn said(read: &unit::ReadSlip) -> [u64; 7] {
    let places = [read.text_at, read.text_len, read.signature_at, read.signature_len].map(|n| n as u64);
    let [text_at, text_len, signature_at, signature_len] = places;
    [read.movement.into(), read.track.into(), read.set.into(), text_at, text_len, signature_at, signature_len]
}

fn resize_words(words: &mut Vec<u64>, n: usize, random: &mut Random) {
    words.truncate(n);
    words.extend(words_below_q(n - words.len(), random));
}

/// What was lent to be read must be as it was.
pub fn only_read(after: &Inputs, before: &Inputs) -> Result<(), String> {
    if after == before { Ok(()) } else { Err("an input was written".to_string()) }
}

/// Status, attempts, the numbers told and all buffers with their guards; else what differs.
pub fn compare(found: &Answer, expected: &Answer) -> Result<(), String> {
    let numbers = |answer: &Answer| (answer.status, answer.attempts);
    if numbers(found) != numbers(expected) {
        let ((status, attempts), (right, right_attempts)) = (numbers(found), numbers(expected));
        return Err(format!("status {status}, attempts {attempts}; expected: status {right}, attempts {right_attempts}"));
    }
    if found.told != expected.told {
        return Err(format!("status {}: told {:?}, expected: {:?}", found.status, found.told, expected.told));
    }
    let (f, e) = (&found.buffers, &expected.buffers);
    let differs = differs("result bytes", &f.bytes, &e.bytes)
        .or_else(|| differs("result words", &f.words, &e.words))
        .or_else(|| differs("result signs", &f.signs, &e.signs))
        .or_else(|| differs("work buffer", &f.work, &e.work));
    differs.map_or(Ok(()), |place| Err(format!("status {}: {place}", found.status)))
}

/// Where a buffer is not as expected.
fn differs<T: PartialEq>(name: &str, found: &[T], expected: &[T]) -> Option<String> {
    let at = (0..found.len().max(expected.len())).find(|&at| found.get(at) != expected.get(at))?;
    let end = expected.len() - GUARD;
    Some(match at {
        _ if at < GUARD => format!("{name}: a guard before them was written"),
        _ if at >= end => format!("{name}: a guard behind them was written"),
        _ => format!("{name}: element {} is not as expected", at - GUARD),
    })
}
