//! Why a command did not do what it was asked, and the exit status that says so.

use raccoon::{NotSigned, Refusal};
use std::fmt;
use std::io::{self, Write};

/// What went wrong.
#[derive(Debug)]
pub enum Trouble {
    /// The command was called in a wrong way: exit status 2.
    Usage { message: String, help: String },
    /// A file or the system: exit status 2.
    System(String),
    /// The unit answered a check with no: exit status 1.
    Refused { answer: String, advice: String },
    /// All was said already.
    Said(u8),
}

impl Trouble {
    /// A refusal, with the advice of docs/GUIDE.md.
    pub fn refused(refusal: Refusal, doing: Doing) -> Trouble {
        Trouble::Refused { answer: refusal.to_string(), advice: advice(refusal, doing).into() }
    }

    /// No signature, with the attempts that were made.
    pub fn not_signed(answer: NotSigned) -> Trouble {
        Trouble::Refused { answer: answer.to_string(), advice: advice(answer.refusal, Doing::Signing).into() }
    }

    /// Trouble with a file, by its name.
    pub fn file(name: impl fmt::Display, error: &io::Error) -> Trouble {
        Trouble::System(format!("{name}: {}", reason(error)))
    }

    /// The operating system gave no random bytes.
    pub fn random(error: io::Error) -> Trouble {
        Trouble::file("random bytes of the operating system", &error)
    }

    pub fn status(&self) -> u8 {
        match self {
            Trouble::Usage { .. } | Trouble::System(_) => 2,
            Trouble::Refused { .. } => 1,
            Trouble::Said(status) => *status,
        }
    }

    /// Says it on standard error.
    pub fn report(&self) {
        // nobody is left to be told if that fails
        let _ = write!(io::stderr(), "{self}");
    }
}

impl fmt::Display for Trouble {
    fn fmt(&self, f: &mut fmt::Formatter) -> fmt::Result {
        match self {
            Trouble::Usage { message, help } => writeln!(f, "koivrast: {message}\nTry: {help}"),
            Trouble::System(message) => writeln!(f, "koivrast: {message}"),
            Trouble::Refused { answer, advice } => writeln!(f, "koivrast: refused, {answer}\n{advice}"),
            Trouble::Said(_) => Ok(()),
        }
    }
}

/// Says on standard error what does not stop a command, in one line.
pub fn warn(message: String) {
    let _ = writeln!(io::stderr(), "koivrast: warning: {message}");
}

/// The system's words for an error, without its number.
fn reason(error: &io::Error) -> String {
    let text = error.to_string();
    text.split(" (os error").next().unwrap_or(&text).to_string()
}

/// What the unit was asked to do when it refused.
#[derive(Clone, Copy, PartialEq, Eq, Debug)]
pub enum Doing {
    MakingKey,
    LoadingKey,
    Signing,
    Verifying,
    ReadingSlip,
}

/// What to do about a refusal: the table of docs/GUIDE.md.
pub fn advice(refusal: Refusal, doing: Doing) -> &'static str {
    use Refusal::*;
    match (refusal, doing) {
        (BadSet, _) => "Take --set 128, 192 or 256.",
        (BadShareCount, _) => "Take --shares 1, 2, 4, 8, 16 or 32.",
        (BadKeyLength, _) => "It is a key of another set or share count, or a damaged file.",
        (BadPublicKey | BadShareWords, _) => "The key is damaged: do not use it.",
        (BadAttempts, _) => "Take --attempts from 1 to 16.",
        (BadSeeds | BadBuffer, _) => "koivrast has called the unit in a wrong way: please report this.",
        (BadMessageLength, Doing::Verifying) => "Do not accept it. If its hash was signed, verify the hash.",
        (BadMessageLength, _) => "Sign its hash instead, for instance what sha256sum prints of it.",
        (UniformNotFilled, Doing::MakingKey) => "Run keygen again: it draws new seeds.",
        (UniformNotFilled, _) => "No key is known that meets this: take another key.",
        (ChallengeNotFilled, Doing::Verifying | Doing::ReadingSlip) => "Do not accept it.",
        (ChallengeNotFilled, _) => "Sign again: new seeds are drawn.",
        (NoAttemptPassed, _) => {
            "Sign again, with more --attempts. If it stays, the key's shares are not those of its public key."
        }
        (BadSignatureLength, _) => "Do not accept it: it is cut, or of another set.",
        (BadSignatureForm, _) => "Do not accept it: it is damaged or forged.",
        (BadSignatureBounds, _) => "Do not accept it.",
        (BadSignatureHash, Doing::ReadingSlip) => {
            "Do not accept it: it was changed, is signed with another key or with a false digest, or forged."
        }
        (BadSignatureHash, _) => "Do not accept it: it is of another message or key, made with a false digest, or forged.",
        (BadSlipMark, _) => "A slip is what `koivrast slip sign` writes.",
        (BadSlipVersion, _) => "Do not accept it: it is damaged, or of a version that is not read here.",
        (BadSlipLength, Doing::Signing) => "Take a text of at most 512 bytes.",
        (BadSlipLength, _) => "Do not accept it: it is cut, lengthened or damaged.",
        (MasksNotFilled, _) => "No mask seed is known that meets this. Run the command again: it draws new seeds.",
    }
}

#[cfg(test)]
mod tests {
    use super::*;

    /// No seeds are known that get 20, so no run of the tool meets it.
    #[test]
    fn masks_that_do_not_fill() {
        let refusal = Refusal::MasksNotFilled;
        let said = "koivrast: refused, 20: Did every mask polynomial fill within 777 draws? No.";
        let again = "No mask seed is known that meets this. Run the command again: it draws new seeds.";
        for doing in [Doing::MakingKey, Doing::LoadingKey, Doing::Signing] {
            let trouble = Trouble::refused(refusal, doing);
            assert_eq!((trouble.to_string(), trouble.status()), (format!("{said}\n{again}\n"), 1));
        }
        let trouble = Trouble::not_signed(NotSigned { refusal, attempts: 2 });
        assert_eq!((trouble.to_string(), trouble.status()), (format!("{said} (after 2 attempts)\n{again}\n"), 1));
    }
}
