//! What is in a key, a signature or a slip. Of secrets only sizes are told. Signatures are read by the independent implementation, their
//! bits counted by the unit; slips are read by the unit.

use crate::args::Args;
use crate::files::{Contents, print};
use crate::keys::{FALSE_DIGEST, unknown};
use crate::kind::{Kind, LONGEST, kind_of};
use crate::slip::tell_slip;
use crate::trouble::Trouble;
use independent::keccak::shake256;
use independent::raccoon::{self as plain, Edition, Fields};
use raccoon::{ExpandedKey, N, Params, PublicKey, Refusal, Set, SigningKey, Slip};
use std::collections::BTreeMap;
use std::fmt::Write;
use std::os::unix::fs::PermissionsExt;
use std::path::Path;

/// What is told of one file.
struct Findings {
    text: String,
    /// Is everything as it should be?
    sound: bool,
    /// The public key in the file, if it is a key.
    public: Option<Vec<u8>>,
}

/// Tells of each file. The exit status is the worst that was met.
pub fn run(args: &Args) -> Result<(), Trouble> {
    args.one_standard_input(args.operands().iter().map(|path| path.as_path()))?;
    let (mut status, mut publics) = (0, vec![]);
    for path in args.operands() {
        match inspect(path) {
            Ok(findings) => {
                print(findings.text)?;
                status = status.max(u8::from(!findings.sound));
                publics.extend(findings.public);
            }
            Err(trouble) => {
                trouble.report();
                status = status.max(trouble.status());
            }
        }
    }
    if publics.len() > 1 {
        let same = if publics.windows(2).all(|two| two[0] == two[1]) { "yes" } else { "no" };
        print(format!("same public key in these {} files: {same}\n", publics.len()))?;
    }
    if status == 0 { Ok(()) } else { Err(Trouble::Said(status)) }
}

fn inspect(path: &Path) -> Result<Findings, Trouble> {
    let file = Contents::read(path, LONGEST)?;
    let Some(kind) = kind_of(&file) else { return Err(unknown(&file)) };
    let mut findings = match kind {
        Kind::Signature(set) => signature(set, &file),
        Kind::Slip(_) => slip(&file),
        Kind::PublicKey(set) => public_key(set, &file),
        Kind::SigningKey(params) => signing_key(params, &file, path),
        Kind::ExpandedKey(params) => expanded_key(params, &file, path),
    };
    findings.text.insert_str(0, &format!("{}: {kind}, {} bytes\n", file.name, file.len()));
    Ok(findings)
}

fn hex(bytes: &[u8]) -> String {
    bytes.iter().map(|byte| format!("{byte:02x}")).collect()
}

/// The first 16 bytes of a hash, and how many there are.
fn shortened(hash: &[u8]) -> String {
    format!("{}... ({} bytes)", hex(&hash[..16]), hash.len())
}

/// A name for public bytes: 16 bytes of SHAKE256.
pub fn fingerprint(bytes: &[u8]) -> String {
    let mut out = [0; 16];
    shake256(bytes, &mut out);
    hex(&out)
}

/// One line of a report.
pub fn line(text: &mut String, name: &str, value: impl std::fmt::Display) {
    let _ = writeln!(text, "  {name:<18} {value}");
}

/// A chart: a label, a count and a bar in each row, the longest bar 40 wide.
fn chart(text: &mut String, rows: &[(String, usize)]) {
    let most = rows.iter().map(|row| row.1).max().unwrap_or(0).max(1);
    for (label, count) in rows {
        let bar = "#".repeat((40 * count).div_ceil(most));
        let _ = writeln!(text, "  {label:>18} {count:>6} |{bar}");
    }
}

/// A good word, or the check that is answered with no.
fn verdict(yes: bool, good: &str, check: Refusal) -> String {
    if yes { good.into() } else { format!("refused, {check}") }
}

/// The answer of the unit to what a key holds.
fn contents(text: &mut String, answer: Result<(), Refusal>) -> bool {
    let good = "in order: coefficients below 125, words of the shares below q";
    line(text, "contents", answer.map_or_else(|refusal| format!("refused, {refusal}"), |()| good.into()));
    answer.is_ok()
}

/// Who can read a secret file.
fn readers(text: &mut String, path: &Path) {
    let Ok(mode) = path.metadata().map(|there| there.permissions().mode() & 0o777) else { return };
    let whom = if mode & 0o077 == 0 { "the owner only".into() } else { format!("others too: chmod 600 {}", path.display()) };
    line(text, "readable by", format!("{whom} (mode {mode:03o})"));
}

fn public_key(set: Set, file: &[u8]) -> Findings {
    let mut text = String::new();
    let (seed, packed) = file.split_at(set.seed_bytes());
    line(&mut text, "fingerprint", fingerprint(file));
    line(&mut text, "matrix seed", hex(seed));
    let answer = PublicKey::from_bytes(set, file).map(drop);
    line(&mut text, "below 125", verdict(answer.is_ok(), "all coefficients", Refusal::BadPublicKey));
    line(&mut text, "coefficients", format!("{} x {N}, 7 bits each", set.k()));
    let mut counts = [0; 6];
    plain::unpack(packed, 7).iter().for_each(|&coefficient| counts[coefficient as usize / 25] += 1);
    let label = |i: usize| format!("{}..{}", 25 * i, (25 * i + 24).min(127));
    let rows: Vec<_> = counts.into_iter().enumerate().map(|(i, count)| (label(i), count)).collect();
    chart(&mut text, if answer.is_ok() { &rows[..5] } else { &rows });
    Findings { text, sound: answer.is_ok(), public: Some(file.to_vec()) }
}

fn signing_key(params: Params, file: &[u8], path: &Path) -> Findings {
    let (mut text, set, shares) = (String::new(), params.set, params.shares.count());
    let public = &file[..set.public_key_bytes()];
    line(&mut text, "fingerprint", format!("{} (of the public key)", fingerprint(public)));
    line(&mut text, "public key", format!("{} bytes", public.len()));
    line(&mut text, "share seeds", format!("{} x {} bytes, secret", shares - 1, set.seed_bytes()));
    line(&mut text, "one share in full", format!("{} x 3136 bytes, secret", set.l()));
    let sound = contents(&mut text, SigningKey::from_bytes(params, file).map(drop));
    readers(&mut text, path);
    Findings { text, sound, public: Some(public.to_vec()) }
}

fn expanded_key(params: Params, file: &[u8], path: &Path) -> Findings {
    let (mut text, set, shares) = (String::new(), params.set, params.shares.count());
    let (public, digest) = file[..set.expanded_bytes()].split_at(set.public_key_bytes());
    line(&mut text, "fingerprint", format!("{} (of the public key)", fingerprint(public)));
    line(&mut text, "public key", format!("{} bytes", public.len()));
    line(&mut text, "digest", shortened(digest));
    let shape = format!("{} polynomials x {shares} shares x {N}", set.l());
    line(&mut text, "words", format!("{} = {shape}, 8 bytes each, secret", params.share_words()));
    let is_true = ExpandedKey::from_bytes(params, file).map(|key| key.digest_is_true());
    contents(&mut text, is_true.map(drop));
    if let Ok(is_true) = is_true {
        line(&mut text, "digest is true", if is_true { "yes".into() } else { format!("no: {FALSE_DIGEST}") });
    }
    readers(&mut text, path);
    Findings { text, sound: is_true == Ok(true), public: Some(public.to_vec()) }
}

fn signature(set: Set, file: &[u8]) -> Findings {
    let mut text = String::new();
    let p = plain::Params::new(set.number() as usize, 1, Edition::Printed).expect("one of the sets");
    line(&mut text, "challenge hash", shortened(&file[..p.hash_bytes()]));
    let fields = plain::read(&p, file);
    let well_formed = fields.as_ref().is_some_and(|fields| plain::write(&p, fields).as_deref() == Some(file));
    line(&mut text, "form", verdict(well_formed, "in order", Refusal::BadSignatureForm));
    let within = fields.is_some_and(|fields| {
        line(&mut text, "bits used", bits_used(set, &fields));
        tell_fields(&mut text, &p, &fields);
        plain::check_bounds(&p, &fields)
    });
    Findings { text, sound: well_formed && within, public: None }
}

/// A slip, which no key is asked about, and its signature.
fn slip(file: &[u8]) -> Findings {
    let slip = Slip::look(file).expect("a slip");
    let (mut text, fields) = (String::new(), slip.fields());
    tell_slip(&mut text, fields);
    line(&mut text, "signer", "not verified: anyone may have written this; `koivrast slip read` asks");
    let signature = signature(fields.set(), fields.signature().as_bytes());
    Findings { text: text + &signature.text, ..signature }
}

/// The squared norm as Algorithm 4 of paper 000 has it, divided by 2^64: of the response without the low 32 bits.
fn squared_norm(hint: &[i64], response: &[i64]) -> u128 {
    let squares =
        |numbers: &[i64], shift: u32| numbers.iter().map(|z| u128::from(z.unsigned_abs() >> shift).pow(2)).sum::<u128>();
    (squares(hint, 0) << 24) + squares(response, 32)
}

fn part(value: u128, bound: u128) -> String {
    format!("{value} of {bound} ({:.1} %)", 100.0 * value as f64 / bound as f64)
}

/// How many bits of a signature are used, before it is filled with zeros. A forged hint may have numbers that the unit does not take.
fn bits_used(set: Set, fields: &Fields) -> String {
    let hint: Result<Vec<i8>, i64> = fields.hint.iter().map(|&z| i8::try_from(z).map_err(|_| z)).collect();
    match hint {
        Ok(hint) => {
            let bits = set.signature_bits(&hint, &fields.response).expect("as many numbers as the set says");
            part(bits.into(), 8 * set.signature_bytes() as u128)
        }
        Err(z) => format!("not counted: the hint has {z}, where the unit counts from -128 to 127"),
    }
}

/// Norms and hint of a signature that can be read.
fn tell_fields(text: &mut String, p: &plain::Params, fields: &Fields) {
    let largest = |numbers: &[i64]| numbers.iter().map(|z| u128::from(z.unsigned_abs())).max().unwrap_or(0);
    line(text, "largest hint", part(largest(&fields.hint), p.hint_limit().into()));
    line(text, "largest response", part(largest(&fields.response), p.binf.into()));
    line(text, "squared norm", part(squared_norm(&fields.hint, &fields.response), p.b22.into()) + ", both / 2^64");
    line(text, "bounds", verdict(plain::check_bounds(p, fields), "passed", Refusal::BadSignatureBounds));
    tell_decider(text, p, fields);
    line(text, "hint", format!("{} x {N} numbers", p.k));
    let mut counts = BTreeMap::new();
    // a forged hint may have many values: from 9 on they share a row
    fields.hint.iter().for_each(|z| *counts.entry(z.clamp(&-9, &9)).or_insert(0) += 1);
    let label = |z: i64| if z.abs() < 9 { z.to_string() } else { format!("{z} and beyond") };
    chart(text, &counts.into_iter().map(|(&z, count)| (label(z), count)).collect::<Vec<_>>());
}

/// Of fields over the bounds: the coefficient that decides, why, and how many were read with it.
fn tell_decider(text: &mut String, p: &plain::Params, fields: &Fields) {
    let plain::Decision { passed, coefficients } = plain::decide_bounds(p, fields);
    if passed {
        return;
    }
    let (hint, response) = (&fields.hint, &fields.response);
    let (field, at, value, limit) = match coefficients.checked_sub(hint.len() + 1) {
        None => ("hint", coefficients - 1, hint[coefficients - 1], p.hint_limit()),
        Some(at) => ("response", at, response[at], p.binf),
    };
    let why = if value.unsigned_abs() > limit {
        format!("above its limit, {limit}")
    } else {
        let read = (&hint[..coefficients.min(hint.len())], &response[..coefficients.saturating_sub(hint.len())]);
        format!("which lifts the squared norm to {}, above {}, both / 2^64", squared_norm(read.0, read.1), p.b22)
    };
    line(text, "decided by", format!("{field}, polynomial {}, place {}: {value}, {why}", at / N, at % N));
    line(text, "coefficients read", format!("{coefficients} of {}", hint.len() + response.len()));
}
