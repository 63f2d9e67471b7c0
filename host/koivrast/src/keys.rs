//! Keys and signatures from the contents of files. Slips are told apart first; set and share count follow from the length.

use crate::files::Contents;
use crate::kind::{Kind, kind_of, without_digest};
use crate::trouble::{Doing, Trouble, advice, warn};
use raccoon::{
    ExpandedKey, NotSigned, Params, PublicKey, Refusal, Set, Signature, Signed, SignedSlip, SigningKey, SigningSeeds, Slip,
};

/// A key that signs.
pub enum Key {
    Signing(SigningKey),
    Expanded(ExpandedKey),
}

impl Key {
    pub fn from_file(file: &Contents) -> Result<Key, Trouble> {
        match kind_of(file) {
            Some(Kind::SigningKey(_)) => signing_key(file).map(Key::Signing),
            Some(Kind::ExpandedKey(_)) => expanded_key(file).map(Key::Expanded),
            _ => Err(wrong_key(file, &[Form::Signing, Form::Expanded])),
        }
    }

    pub fn params(&self) -> Params {
        match self {
            Key::Signing(key) => key.params(),
            Key::Expanded(key) => key.params(),
        }
    }

    pub fn sign(&self, message: &[u8], seeds: SigningSeeds) -> Result<Signed, NotSigned> {
        match self {
            Key::Signing(key) => key.sign(message, seeds),
            Key::Expanded(key) => key.sign(message, seeds),
        }
    }

    pub fn sign_slip(&self, movement: u16, track: u8, text: &[u8], seeds: SigningSeeds) -> Result<SignedSlip, NotSigned> {
        match self {
            Key::Signing(key) => key.sign_slip(movement, track, text, seeds),
            Key::Expanded(key) => key.sign_slip(movement, track, text, seeds),
        }
    }
}

pub fn signing_key(file: &Contents) -> Result<SigningKey, Trouble> {
    match kind_of(file) {
        Some(Kind::SigningKey(params)) => SigningKey::from_bytes(params, file).map_err(damaged),
        _ => Err(wrong_key(file, &[Form::Signing])),
    }
}

/// A false digest is refused by no check, but warned of.
pub fn expanded_key(file: &Contents) -> Result<ExpandedKey, Trouble> {
    let key = match kind_of(file) {
        Some(Kind::ExpandedKey(params)) => ExpandedKey::from_bytes(params, file).map_err(damaged)?,
        _ => return Err(wrong_key(file, &[Form::Expanded])),
    };
    if !key.digest_is_true() {
        warn(format!("{}: the digest is not that of the public key; {FALSE_DIGEST}", file.name));
    }
    Ok(key)
}

/// What a false digest in an expanded key means.
pub const FALSE_DIGEST: &str = "signatures made with this key will be refused with 16";

pub fn public_key(file: &Contents) -> Result<PublicKey, Trouble> {
    match kind_of(file) {
        Some(Kind::PublicKey(set)) => PublicKey::from_bytes(set, file).map_err(damaged),
        _ => Err(wrong_key(file, &[Form::Public])),
    }
}

fn damaged(refusal: Refusal) -> Trouble {
    Trouble::refused(refusal, Doing::LoadingKey)
}

/// A signature for public keys of this set.
pub fn signature(set: Set, file: &Contents) -> Result<Signature, Trouble> {
    Signature::from_bytes(set, file).map_err(|refusal| {
        let (set, bytes) = (set.number(), set.signature_bytes());
        let advice = format!("{}. The public key is of set {set}, whose signatures have {bytes}. Do not accept it.", found(file));
        Trouble::Refused { answer: refusal.to_string(), advice }
    })
}

/// `gate.pub has 2256 bytes, like a public key of set 128`
fn found(file: &Contents) -> String {
    let said = file.length_said();
    match (kind_of(file), without_digest(file.len())) {
        (Some(kind @ Kind::ExpandedKey(_)), _) => format!("{said}, like an {kind}"),
        (Some(kind @ Kind::Slip(_)), _) => format!("{said}, like a {kind}, which `koivrast slip read` takes"),
        (Some(kind), _) => format!("{said}, like a {kind}"),
        (None, Some(old)) => format!("{said}, like an {old} as written before the digest was kept in it"),
        (None, None) => said,
    }
}

/// Check 3 answered with no: what the file is and what was wanted; if it is nothing, the lengths that would do.
fn wrong_key(file: &Contents, wanted: &[Form]) -> Trouble {
    let origins = || -> String { wanted.iter().map(|form| format!("\n{}", form.origin())).collect() };
    let said = match kind_of(file) {
        Some(_) => origins(),
        None if without_digest(file.len()).is_some() => format!("\n{EXPAND_AGAIN}{}", origins()),
        None => wanted.iter().map(|form| form.lengths()).collect(),
    };
    Trouble::Refused { answer: Refusal::BadKeyLength.to_string(), advice: format!("{}.{said}", found(file)) }
}

/// What to do about an expanded key without a digest.
const EXPAND_AGAIN: &str = "Expand the signing key again with `koivrast open`.";

/// A file that is no key, no signature and no slip of today.
pub fn unknown(file: &Contents) -> Trouble {
    let (refusal, advice) = match (without_digest(file.len()), Slip::look(file)) {
        (Some(_), _) => (Refusal::BadKeyLength, format!("{}.\n{EXPAND_AGAIN}", found(file))),
        (None, Err(refusal @ (Refusal::BadSlipVersion | Refusal::BadSlipLength))) => (refusal, no_slip(refusal, file)),
        _ => {
            (Refusal::BadKeyLength, format!("{}: no key and no signature is that long, and a slip begins with TMR.", found(file)))
        }
    };
    Trouble::Refused { answer: refusal.to_string(), advice }
}

/// What to do about a file that is refused with 17, 18 or 19.
pub fn no_slip(refusal: Refusal, file: &Contents) -> String {
    format!("{}. {}", found(file), advice(refusal, Doing::ReadingSlip))
}

/// A form of key that a command takes.
#[derive(Clone, Copy)]
enum Form {
    Signing,
    Expanded,
    Public,
}

impl Form {
    fn origin(self) -> &'static str {
        match self {
            Form::Signing => "A signing key is what keygen writes to --key.",
            Form::Expanded => "An expanded key is what `koivrast open` makes of a signing key.",
            Form::Public => "A public key is what keygen writes to --public.",
        }
    }

    /// The lengths of such keys, set by set.
    fn lengths(self) -> String {
        let heading = match self {
            Form::Signing => "A signing key of 1, 2, 4, 8, 16, 32 shares has",
            Form::Expanded => "An expanded key of 1, 2, 4, 8, 16, 32 shares has",
            Form::Public => "A public key has",
        };
        let is_wanted = |kind: &Kind| match self {
            Form::Signing => matches!(kind, Kind::SigningKey(_)),
            Form::Expanded => matches!(kind, Kind::ExpandedKey(_)),
            Form::Public => matches!(kind, Kind::PublicKey(_)),
        };
        let row = |set: Set| {
            let kinds = Kind::with_a_length().filter(is_wanted).filter(|kind| kind.set() == set);
            let lengths: Vec<String> = kinds.filter_map(Kind::bytes).map(|bytes| bytes.to_string()).collect();
            format!("\n  set {}: {} bytes", set.number(), lengths.join(", "))
        };
        format!("\n{heading}{}", Set::ALL.map(row).concat())
    }
}
