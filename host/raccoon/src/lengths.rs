//! What a signing call takes and how long a signature gets, as the unit tells it (paper 02, request #103).

use crate::{Params, Refusal, Set, call};

/// What a signing call from seeds is lent besides key and message, for all its attempts. The unit tells it: a call with just these
/// lengths passes checks 7 and 8, and one with any other does not.
///
/// ```
/// use raccoon::{Lengths, Params, Refusal, Set, Shares};
///
/// let params = Params::new(Set::Raccoon128, Shares::Four);
/// let lengths = Lengths::of(params, 16)?;
/// assert_eq!((lengths.noise_seed_bytes, lengths.mask_seed_bytes, lengths.work_words), (18432, 512, 33792));
/// assert_eq!(Lengths::of(params, 17), Err(Refusal::BadAttempts));
/// # Ok::<(), Refusal>(())
/// ```
#[derive(Clone, Copy, PartialEq, Eq, Debug)]
pub struct Lengths {
    pub noise_seed_bytes: usize,
    pub mask_seed_bytes: usize,
    /// Of the work buffer, which key generation takes too.
    pub work_words: usize,
}

impl Lengths {
    /// Refused with 6 unless the attempts are 1 to 16.
    pub fn of(params: Params, attempts: u32) -> Result<Lengths, Refusal> {
        let (set, shares) = params.numbers();
        let answer = call::lengths(set, shares, attempts);
        Refusal::from_status(answer.status)?;
        let [noise_seed_bytes, mask_seed_bytes, work_words] =
            [answer.noise_seed_bytes, answer.mask_seed_bytes, answer.work_words].map(|n| n as usize);
        Ok(Lengths { noise_seed_bytes, mask_seed_bytes, work_words })
    }

    /// Of one attempt, which no check refuses.
    pub(crate) fn of_one(params: Params) -> Lengths {
        Lengths::of(params, 1).expect("one attempt is allowed")
    }
}

impl Set {
    /// How many bits the writer makes of a challenge hash, a hint and a response, before it fills with zeros; counted by the unit. Any
    /// numbers are allowed. Refused with 13 where hint or response is not as long as that of a signature: k and l polynomials.
    ///
    /// A signature has room for 8 x [`Set::signature_bytes`] of them.
    ///
    /// ```
    /// use raccoon::{N, Refusal, Set};
    ///
    /// let set = Set::Raccoon128;
    /// let (mut hint, mut response) = (vec![0; set.k() * N], vec![0; set.l() * N]);
    /// assert_eq!(set.signature_bits(&hint, &response), Ok(86_784));
    /// (hint[0], response[0]) = (-2, 3 << 40);
    /// assert_eq!(set.signature_bits(&hint, &response), Ok(86_784 + 3 + 4));
    /// assert_eq!(set.signature_bits(&hint[1..], &response), Err(Refusal::BadSignatureLength));
    /// ```
    pub fn signature_bits(self, hint: &[i8], response: &[i64]) -> Result<u64, Refusal> {
        let answer = call::signature_bits(self.number(), hint, response);
        Refusal::from_status(answer.status).map(|()| answer.bits)
    }
}
