//! Release slips (paper 02, request #101): an order and its signature in one file. The unit writes, reads and verifies them.

use crate::call::{self, ReadSlip};
use crate::{ExpandedKey, NotSigned, PublicKey, Refusal, Set, Signature, Signed, SigningKey, SigningSeeds};
use std::fmt;

/// The longest text of a slip.
pub const MAX_TEXT_BYTES: usize = 512;
/// Bytes before the text: mark, version, movement, track, length of the text.
const LEADING_BYTES: usize = 10;

/// The fields of a slip: its text is at most 512 bytes long, its signature as long as its set says.
///
/// The signature is of all that stands before it. [`SigningKey::sign_slip`] makes message, signature and slip in one step; whether a slip is
/// good, [`Slip::read`] says.
///
/// ```
/// use raccoon::*;
///
/// # fn main() -> Result<(), Box<dyn std::error::Error>> {
/// let params = Params::new(Set::Raccoon128, Shares::Two);
/// let key = SigningKey::generate(KeygenSeeds::draw(params, os_random)?)?;
/// let signed = key.sign_slip(1017, 4, b"Release tram 17.", SigningSeeds::new(params).draw(os_random)?)?;
/// let mut bytes = signed.slip.to_bytes();
/// assert_eq!(bytes[..10], [b'T', b'M', b'R', 1, 0, 0xf9, 0x03, 4, 16, 0]);
///
/// let slip = Slip::read(&key.public_key(), &bytes)?;
/// assert_eq!((slip.movement(), slip.track(), slip.text()), (1017, 4, &b"Release tram 17."[..]));
///
/// bytes[7] = 5;
/// let refused = Slip::read(&key.public_key(), &bytes).unwrap_err();
/// assert_eq!(refused.refusal, Refusal::BadSignatureHash);
/// assert_eq!(refused.unverified.unwrap().fields().track(), 5);
/// # Ok(())
/// # }
/// ```
#[derive(Clone, PartialEq, Eq, Debug)]
pub struct Slip {
    movement: u16,
    track: u8,
    text: Box<[u8]>,
    signature: Signature,
}

impl Slip {
    /// Around a signature that was made of [`Slip::message`]. Refused with 19 for a text that is too long; whether the signature is good is
    /// not asked.
    pub fn new(movement: u16, track: u8, text: &[u8], signature: Signature) -> Result<Slip, Refusal> {
        // the writer asks 19 first; without a result buffer it then stops at 8
        match Refusal::from_status(call::write_slip(movement, track, text, &signature.bytes, &mut [])) {
            Err(Refusal::BadBuffer) => Ok(Slip { movement, track, text: text.into(), signature }),
            Err(refusal) => Err(refusal),
            Ok(()) => unreachable!("no buffer holds a slip"),
        }
    }

    /// What is signed: the front of the slip, of any set, without its signature. Refused with 19 for a text that is too long.
    ///
    /// ```
    /// use raccoon::{Refusal, Slip};
    ///
    /// assert_eq!(Slip::message(1017, 4, b"Go.")?, b"TMR\x01\x00\xf9\x03\x04\x03\x00Go.");
    /// assert_eq!(Slip::message(1017, 4, &[b'.'; 513]), Err(Refusal::BadSlipLength));
    /// # Ok::<(), Refusal>(())
    /// ```
    pub fn message(movement: u16, track: u8, text: &[u8]) -> Result<Vec<u8>, Refusal> {
        let mut slip = written(movement, track, text, &[0; Set::Raccoon128.signature_bytes()])?;
        slip.truncate(LEADING_BYTES + text.len());
        Ok(slip)
    }

    /// Reads a slip and verifies it: with this public key it was signed, and nothing in it was changed since.
    ///
    /// Refused with 17, 18 or 19 where it is no slip, with 3 where it is of another set than the public key, else as
    /// [`PublicKey::verify`]; [`NotRead`] says which, and has the fields, not verified.
    pub fn read(public_key: &PublicKey, bytes: &[u8]) -> Result<Slip, NotRead> {
        let answer = call::read_slip(public_key.as_bytes(), bytes);
        let fields = fields(&answer, bytes);
        match Refusal::from_status(answer.status) {
            Ok(()) => Ok(fields.expect("a good slip has fields")),
            Err(refusal) => Err(NotRead { refusal, unverified: fields.map(UnverifiedSlip) }),
        }
    }

    /// The fields without a key, not verified: to show them, or to find the public key by their set. Refused with 17, 18 or 19.
    pub fn look(bytes: &[u8]) -> Result<UnverifiedSlip, Refusal> {
        // the reader asks 17, 18 and 19 first; without a public key it then stops at 3, with all fields
        let answer = call::read_slip(&[], bytes);
        match (Refusal::from_status(answer.status), fields(&answer, bytes)) {
            (Err(Refusal::BadKeyLength), Some(fields)) => Ok(UnverifiedSlip(fields)),
            (Err(refusal), None) => Err(refusal),
            answer => unreachable!("no bytes are a public key: {answer:?}"),
        }
    }

    /// The bytes of the file. What was read gives the bytes that it was read from.
    pub fn to_bytes(&self) -> Vec<u8> {
        written(self.movement, self.track, &self.text, &self.signature.bytes).expect("fields that fit")
    }

    pub fn movement(&self) -> u16 {
        self.movement
    }

    pub fn track(&self) -> u8 {
        self.track
    }

    /// Any bytes, at most 512.
    pub fn text(&self) -> &[u8] {
        &self.text
    }

    pub fn signature(&self) -> &Signature {
        &self.signature
    }

    /// The set of the signature: how many bytes it has tells it.
    pub fn set(&self) -> Set {
        self.signature.set
    }
}

/// The unit's writer.
fn written(movement: u16, track: u8, text: &[u8], signature: &[u8]) -> Result<Vec<u8>, Refusal> {
    let mut slip = vec![0; LEADING_BYTES + text.len() + signature.len()];
    Refusal::from_status(call::write_slip(movement, track, text, signature, &mut slip))?;
    Ok(slip)
}

/// The fields that the reader found, at their places; none where it told no set.
fn fields(answer: &ReadSlip, bytes: &[u8]) -> Option<Slip> {
    let set = Set::try_from(answer.set).ok()?;
    let part = |at: usize, length: usize| bytes[at..at + length].into();
    let signature = Signature { set, bytes: part(answer.signature_at, answer.signature_len) };
    Some(Slip { movement: answer.movement, track: answer.track, text: part(answer.text_at, answer.text_len), signature })
}

/// Fields of a slip that no public key was found good for: anyone may have written them. They are to be shown, not to be acted on.
#[derive(Clone, PartialEq, Eq, Debug)]
pub struct UnverifiedSlip(Slip);

impl UnverifiedSlip {
    pub fn fields(&self) -> &Slip {
        &self.0
    }
}

/// Why a slip is not good. With 17, 18 and 19 there are no fields; with any other refusal they are there, not verified.
#[derive(Clone, PartialEq, Eq, Debug)]
pub struct NotRead {
    pub refusal: Refusal,
    pub unverified: Option<UnverifiedSlip>,
}

impl fmt::Display for NotRead {
    fn fmt(&self, f: &mut fmt::Formatter) -> fmt::Result {
        self.refusal.fmt(f)
    }
}

impl std::error::Error for NotRead {}

/// A slip, and the number of the attempt that signed it, from 1.
#[derive(Clone, PartialEq, Eq, Debug)]
pub struct SignedSlip {
    pub slip: Slip,
    pub attempt: u32,
}

/// Message, signature, slip.
fn signed(
    movement: u16,
    track: u8,
    text: &[u8],
    sign: impl FnOnce(&[u8]) -> Result<Signed, NotSigned>,
) -> Result<SignedSlip, NotSigned> {
    let refused = |refusal| NotSigned { refusal, attempts: 0 };
    let Signed { signature, attempt } = sign(&Slip::message(movement, track, text).map_err(refused)?)?;
    Ok(SignedSlip { slip: Slip::new(movement, track, text, signature).map_err(refused)?, attempt })
}

impl SigningKey {
    /// Signs a slip in one step. Refused with 19 for a text that is too long, else as [`SigningKey::sign`] is.
    pub fn sign_slip(&self, movement: u16, track: u8, text: &[u8], seeds: SigningSeeds) -> Result<SignedSlip, NotSigned> {
        signed(movement, track, text, |message| self.sign(message, seeds))
    }
}

impl ExpandedKey {
    /// As [`SigningKey::sign_slip`], without expanding the key each time, and with the digest that it holds.
    pub fn sign_slip(&self, movement: u16, track: u8, text: &[u8], seeds: SigningSeeds) -> Result<SignedSlip, NotSigned> {
        signed(movement, track, text, |message| self.sign(message, seeds))
    }
}
