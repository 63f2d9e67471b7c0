//! Release slips: paper 02, request #101, with the verifier of this implementation. A slip is the mark, the version, the movement number, the
//! track, the length of the text, the text and the signature; numbers are little-endian.

use crate::masks::Checked;
use crate::raccoon::{Edition, Params, verify};
use std::ops::Range;

const MARK: &[u8; 3] = b"TMR";
const VERSION: u16 = 1;

/// The most bytes of a text.
const MAX_TEXT: usize = 512;

/// What a slip says, and the places of its text and its signature. What comes before the signature is the signed message.
#[derive(Clone, PartialEq, Eq, Debug)]
pub struct Slip {
    pub movement: u16,
    pub track: u8,
    pub set: usize,
    pub text: Range<usize>,
    pub signature: Range<usize>,
}

/// The set whose signatures have so many bytes.
fn set_of(signature: usize) -> Option<usize> {
    let has = |&set: &usize| Params::new(set, 1, Edition::Printed).is_some_and(|p| p.sig_bytes == signature);
    [128, 192, 256].into_iter().find(has)
}

/// What a slip says, whoever signed it; or the first of checks 17, 18 and 19 that is answered with no.
pub fn fields(slip: &[u8]) -> Checked<Slip> {
    let behind_mark = slip.strip_prefix(MARK).ok_or(17u32)?;
    let (version, rest) = behind_mark.split_first_chunk().ok_or(18u32)?;
    if u16::from_le_bytes(*version) != VERSION {
        return Err(18);
    }
    let (&[m0, m1, track, t0, t1], rest) = rest.split_first_chunk().ok_or(19u32)?;
    let text = usize::from(u16::from_le_bytes([t0, t1]));
    if text > MAX_TEXT || text > rest.len() {
        return Err(19);
    }
    let set = set_of(rest.len() - text).ok_or(19u32)?;
    let (from, to) = (slip.len() - rest.len(), slip.len());
    let (text, signature) = (from..from + text, from + text..to);
    Ok(Slip { movement: u16::from_le_bytes([m0, m1]), track, set, text, signature })
}

/// What a slip says, and beside it the verifier's verdict on it; or [`fields`]' refusal.
pub fn read(vk: &[u8], slip: &[u8]) -> Checked<(Slip, u32)> {
    let said = fields(slip)?;
    let (message, signature) = slip.split_at(said.signature.start);
    let verdict = verify(said.set, Edition::Printed, vk, message, signature);
    Ok((said, verdict))
}

/// The front of a slip, which is signed; or check 19, where the text is too long.
pub fn front(movement: u16, track: u8, text: &[u8]) -> Checked<Vec<u8>> {
    if text.len() > MAX_TEXT {
        return Err(19);
    }
    let length = text.len() as u16;
    Ok([MARK, &VERSION.to_le_bytes()[..], &movement.to_le_bytes(), &[track], &length.to_le_bytes(), text].concat())
}

/// A slip; or check 19, where the text is too long or the signature no set's. What the signature holds is not asked.
pub fn write(movement: u16, track: u8, text: &[u8], signature: &[u8]) -> Checked<Vec<u8>> {
    let front = front(movement, track, text)?;
    set_of(signature.len()).ok_or(19u32)?;
    Ok([&front, signature].concat())
}
