//! Slips: an order and its signature in one file (paper 02, request #101).

use crate::args::Args;
use crate::commands::{Task, deliver};
use crate::files::{Contents, print};
use crate::inspect::line;
use crate::keys::{no_slip, public_key};
use crate::kind::{Kind, LONGEST};
use crate::trouble::{Doing, Trouble, advice};
use raccoon::{MAX_TEXT_BYTES, NotRead, NotSigned, PublicKey, Refusal, Slip};
use std::fmt::Write;

/// Makes the message of the fields, signs it and writes the slip.
pub fn sign(args: &Args) -> Result<(), Trouble> {
    let (movement, track) = (args.field("--movement", u16::MAX)?, args.field("--track", u8::MAX)?);
    let Task { key, input: text, seeds, out } = Task::given(args, "--text", MAX_TEXT_BYTES)?;
    let signed = key.sign_slip(movement, track, &text, seeds).map_err(|answer| not_signed(answer, &text))?;
    deliver(args, out, &signed.slip.to_bytes(), Kind::Slip(signed.slip.set()), signed.attempt)
}

fn not_signed(answer: NotSigned, text: &Contents) -> Trouble {
    match answer.refusal {
        refusal @ Refusal::BadSlipLength => Trouble::Refused {
            answer: refusal.to_string(),
            advice: format!("{}. {}", text.length_said(), advice(refusal, Doing::Signing)),
        },
        _ => Trouble::not_signed(answer),
    }
}

/// Is a slip good for a public key? If so, what does it say?
pub fn read(args: &Args) -> Result<(), Trouble> {
    let (public_path, slip_path) = (args.path("--public"), args.operands()[0].as_path());
    args.one_standard_input([public_path, slip_path])?;
    let public = Contents::read(public_path, LONGEST)?;
    let file = Contents::read(slip_path, LONGEST)?;

    let key = public_key(&public)?;
    let slip = Slip::read(&key, &file).map_err(|answer| not_read(&answer, &file, &public, &key))?;
    let mut text = format!("good: {} is signed by {} (set {})\n", file.name, public.name, slip.set().number());
    tell_slip(&mut text, &slip);
    print(text)
}

/// Why a slip is not good. Its fields are not printed, so that nobody takes them for good; inspect tells them.
fn not_read(answer: &NotRead, file: &Contents, public: &Contents, key: &PublicKey) -> Trouble {
    let said = match (answer.refusal, &answer.unverified) {
        (refusal, None) => no_slip(refusal, file),
        (Refusal::BadKeyLength, Some(slip)) => {
            let [of_slip, of_key] = [slip.fields().set(), key.set()].map(|set| set.number());
            format!("{} is a slip of set {of_slip}, {} a public key of set {of_key}.", file.name, public.name)
        }
        (refusal, Some(_)) => advice(refusal, Doing::ReadingSlip).into(),
    };
    let hint = if answer.unverified.is_some() { "\nWhat it says, not verified, `koivrast inspect` tells." } else { "" };
    Trouble::Refused { answer: answer.to_string(), advice: format!("{said}{hint}") }
}

/// The fields but the signature, a line each.
pub fn tell_slip(text: &mut String, slip: &Slip) {
    line(text, "movement", slip.movement());
    line(text, "track", slip.track());
    let bytes = match slip.text().len() {
        1 => "1 byte".into(),
        n => format!("{n} bytes"),
    };
    line(text, "text", format!("{} ({bytes})", quoted(slip.text())));
}

/// Any bytes in quotes and in one line. Characters are shown as they are if they can be printed; all else is escaped, so that it can neither
/// steer a terminal nor pass for a line of the tool.
fn quoted(bytes: &[u8]) -> String {
    let mut text = String::from('"');
    for chunk in bytes.utf8_chunks() {
        let escaped = format!("{:?}", chunk.valid());
        text.push_str(&escaped[1..escaped.len() - 1]);
        chunk.invalid().iter().for_each(|byte| write!(text, "\\x{byte:02x}").expect("a string takes all"));
    }
    text.push('"');
    text
}

#[cfg(test)]
mod tests {
    use super::*;

    #[test]
    fn texts_in_quotes() {
        for (bytes, shown) in [
            (&b""[..], r#""""#),
            (b"Release tram 17.\n", r#""Release tram 17.\n""#),
            ("Geleise 4, für Zürich: 5 €".as_bytes(), r#""Geleise 4, für Zürich: 5 €""#),
            (br#"a "quoted" \ 'text'"#, r#""a \"quoted\" \\ 'text'""#),
            (b"\x1b[31mred\x07\r\t\0", r#""\u{1b}[31mred\u{7}\r\t\0""#),
            // right to left, a line separator, a control character of two bytes
            ("a\u{202e}b\u{2028}c\u{85}".as_bytes(), r#""a\u{202e}b\u{2028}c\u{85}""#),
            // no UTF-8: a byte alone, a character that is cut, and one too long for its value
            (b"\xffa\xe2\x82b\xc0\xaf", r#""\xffa\xe2\x82b\xc0\xaf""#),
            (br"\xff", r#""\\xff""#),
        ] {
            assert_eq!(quoted(bytes), shown);
        }
    }

    /// In one line, and each byte string has its own.
    #[test]
    fn no_byte_breaks_a_line() {
        let mut all: Vec<String> = (0..=255).map(|byte| quoted(&[byte])).collect();
        for shown in &all {
            assert!(shown.chars().all(|c| !c.is_control()), "{shown}");
        }
        all.sort();
        all.dedup();
        assert_eq!(all.len(), 256);
    }
}
