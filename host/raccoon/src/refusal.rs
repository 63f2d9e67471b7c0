//! The refusals of paper 01, and of the requests of paper 02 that have landed.

use std::fmt;

/// The first check that was answered with no.
///
/// ```
/// use raccoon::Refusal;
///
/// assert_eq!(Refusal::from_status(0), Ok(()));
/// assert_eq!(Refusal::from_status(13), Err(Refusal::BadSignatureLength));
/// assert_eq!(Refusal::BadSignatureLength.check(), "Is the signature exactly as long as the set says?");
/// ```
#[derive(Clone, Copy, PartialEq, Eq, PartialOrd, Ord, Hash, Debug)]
pub enum Refusal {
    BadSet = 1,
    BadShareCount,
    BadKeyLength,
    BadPublicKey,
    BadShareWords,
    BadAttempts,
    BadSeeds,
    BadBuffer,
    BadMessageLength,
    UniformNotFilled,
    ChallengeNotFilled,
    NoAttemptPassed,
    BadSignatureLength,
    BadSignatureForm,
    BadSignatureBounds,
    BadSignatureHash,
    BadSlipMark,
    BadSlipVersion,
    BadSlipLength,
    MasksNotFilled,
}

use Refusal::*;

impl Refusal {
    /// In the order of their numbers.
    pub const ALL: [Refusal; 20] = [
        BadSet,
        BadShareCount,
        BadKeyLength,
        BadPublicKey,
        BadShareWords,
        BadAttempts,
        BadSeeds,
        BadBuffer,
        BadMessageLength,
        UniformNotFilled,
        ChallengeNotFilled,
        NoAttemptPassed,
        BadSignatureLength,
        BadSignatureForm,
        BadSignatureBounds,
        BadSignatureHash,
        BadSlipMark,
        BadSlipVersion,
        BadSlipLength,
        MasksNotFilled,
    ];

    /// What a status says: 0 is yes to all.
    ///
    /// # Panics
    /// If it is the number of no refusal, which no call answers.
    pub fn from_status(status: u32) -> Result<(), Refusal> {
        match Refusal::ALL.into_iter().find(|refusal| refusal.number() == status) {
            Some(refusal) => Err(refusal),
            None => {
                assert_eq!(status, 0, "a status that no call answers");
                Ok(())
            }
        }
    }

    /// The papers' number, 1 to 20.
    pub const fn number(self) -> u32 {
        self as u32
    }

    /// The check, in the papers' words.
    pub const fn check(self) -> &'static str {
        match self {
            BadSet => "Is the set 128, 192 or 256?",
            BadShareCount => "Is the share count 1, 2, 4, 8, 16 or 32?",
            BadKeyLength => "Is the key exactly as long as set and share count say?",
            BadPublicKey => "Are all public key coefficients below 125?",
            BadShareWords => "Are all words of the full share (expanded key: of all shares) below q?",
            BadAttempts => "Are the allowed attempts from 1 to 16?",
            BadSeeds => "Are seeds, or noise words, and mask seeds exactly as long as the call needs, and noise words below q?",
            BadBuffer => "Is each result buffer, and the work buffer, exactly its size?",
            BadMessageLength => "Is the message at most 4096 bytes?",
            UniformNotFilled => "Did every uniform polynomial fill within 777 draws?",
            ChallengeNotFilled => "Did the challenge fill within 1088 draws?",
            NoAttemptPassed => "Did some allowed attempt pass the bounds and fit the signature length?",
            BadSignatureLength => "Is the signature exactly as long as the set says?",
            BadSignatureForm => "Is the signature the very byte string that the writer makes of the fields read from it?",
            BadSignatureBounds => "Do the fields of the signature pass the bounds?",
            BadSignatureHash => "Is the recomputed challenge hash equal?",
            BadSlipMark => "Does the slip begin with the mark TMR?",
            BadSlipVersion => "Is the version of the slip 1?",
            BadSlipLength => {
                "Has the slip its 10 leading bytes, a text of at most 512 bytes and a signature of some set's length?"
            }
            MasksNotFilled => "Did every mask polynomial fill within 777 draws?",
        }
    }
}

impl fmt::Display for Refusal {
    fn fmt(&self, f: &mut fmt::Formatter) -> fmt::Result {
        write!(f, "{}: {} No.", self.number(), self.check())
    }
}

impl std::error::Error for Refusal {}
