//! The calls of the unit through its C exports, as they are: slices of any length and contents, numbers of any kind, and the status. A
//! slice passes as a pointer and a length.
//!
//! A result is written with status 0 only; else it is as it was. What each call asks, and in which order, is in include/raccoon.h.

// one line for the numbers, one for what is read, one for what is written
#[rustfmt::skip]
mod raw {
    extern "C" {
        pub fn raccoon_keygen(
            set: u32, shares: u32,
            seeds: *const u8, seeds_len: usize, mask_seed: *const u8, mask_len: usize,
            key_out: *mut u8, key_len: usize, work: *mut u64, work_len: usize,
        ) -> u32;
        pub fn raccoon_kat_keygen(
            set: u32, shares: u32,
            seeds: *const u8, seeds_len: usize, mask_seed: *const u8, mask_len: usize,
            key_out: *mut u8, key_len: usize, work: *mut u64, work_len: usize,
        ) -> u32;
        pub fn raccoon_expand_key(
            set: u32, shares: u32,
            key: *const u8, key_len: usize,
            bytes_out: *mut u8, bytes_len: usize, words_out: *mut u64, words_len: usize,
        ) -> u32;
        pub fn raccoon_kat_expand_key(
            set: u32, shares: u32,
            key: *const u8, key_len: usize,
            bytes_out: *mut u8, bytes_len: usize, words_out: *mut u64, words_len: usize,
        ) -> u32;
        pub fn raccoon_refresh_key(
            set: u32, shares: u32,
            bytes: *const u8, bytes_len: usize, words: *const u64, words_len: usize, mask_seed: *const u8, mask_len: usize,
            bytes_out: *mut u8, bytes_out_len: usize, words_out: *mut u64, words_out_len: usize,
        ) -> u32;
        pub fn raccoon_sign(
            set: u32, shares: u32, attempts: u32,
            key: *const u8, key_len: usize, message: *const u8, message_len: usize,
            noise_seeds: *const u8, noise_len: usize, mask_seeds: *const u8, mask_len: usize,
            signature_out: *mut u8, signature_len: usize, work: *mut u64, work_len: usize,
        ) -> super::Signed;
        pub fn raccoon_sign_expanded(
            set: u32, shares: u32, attempts: u32,
            bytes: *const u8, bytes_len: usize, words: *const u64, words_len: usize, message: *const u8, message_len: usize,
            noise_seeds: *const u8, noise_len: usize, mask_seeds: *const u8, mask_len: usize,
            signature_out: *mut u8, signature_len: usize, work: *mut u64, work_len: usize,
        ) -> super::Signed;
        pub fn raccoon_sign_explicit(
            set: u32, shares: u32, attempts: u32,
            key: *const u8, key_len: usize, message: *const u8, message_len: usize,
            noise_words: *const u64, noise_len: usize, mask_seeds: *const u8, mask_len: usize,
            signature_out: *mut u8, signature_len: usize, work: *mut u64, work_len: usize,
        ) -> super::Signed;
        pub fn raccoon_sign_expanded_explicit(
            set: u32, shares: u32, attempts: u32,
            bytes: *const u8, bytes_len: usize, words: *const u64, words_len: usize, message: *const u8, message_len: usize,
            noise_words: *const u64, noise_len: usize, mask_seeds: *const u8, mask_len: usize,
            signature_out: *mut u8, signature_len: usize, work: *mut u64, work_len: usize,
        ) -> super::Signed;
        pub fn raccoon_kat_sign(
            set: u32, shares: u32, attempts: u32,
            key: *const u8, key_len: usize, message: *const u8, message_len: usize,
            noise_seeds: *const u8, noise_len: usize, mask_seeds: *const u8, mask_len: usize,
            signature_out: *mut u8, signature_len: usize, work: *mut u64, work_len: usize,
        ) -> super::Signed;
        pub fn raccoon_verify(
            set: u32,
            public_key: *const u8, key_len: usize, message: *const u8, message_len: usize, signature: *const u8, signature_len: usize,
        ) -> u32;
        pub fn raccoon_kat_verify(
            set: u32,
            public_key: *const u8, key_len: usize, message: *const u8, message_len: usize, signature: *const u8, signature_len: usize,
        ) -> u32;
        pub fn raccoon_lengths(set: u32, shares: u32, attempts: u32) -> super::SigningLengths;
        pub fn raccoon_signature_bits(
            set: u32,
            hint: *const i8, hint_len: usize, response: *const i64, response_len: usize,
        ) -> super::Bits;
        pub fn raccoon_read_slip(
            public_key: *const u8, key_len: usize, slip: *const u8, slip_len: usize,
        ) -> super::ReadSlip;
        pub fn raccoon_write_slip(
            movement: u16, track: u8,
            text: *const u8, text_len: usize, signature: *const u8, signature_len: usize,
            slip_out: *mut u8, slip_len: usize,
        ) -> u32;
        pub fn raccoon_sample_challenge(set: u32, bytes: *const u8, bytes_len: usize, signs_out: *mut i8, signs_len: usize) -> u32;
        pub fn raccoon_sample_uniform(bytes: *const u8, bytes_len: usize, words_out: *mut u64, words_len: usize) -> u32;
    }
}

/// Which text of the submission is followed: the printed one, or that of its response files (docs/GUIDE.md, Editions).
#[derive(Clone, Copy, PartialEq, Eq, Debug)]
pub enum Edition {
    Printed,
    Kat,
}

/// The noise of all attempts: seeds, or the words themselves.
#[derive(Clone, Copy)]
pub enum Noise<'a> {
    Seeds(&'a [u8]),
    Words(&'a [u64]),
}

/// The uniform sampler over lent bytes: its status. With 0 the words hold the polynomial, else they are as they were.
pub fn sample_uniform(bytes: &[u8], words: &mut [u64]) -> u32 {
    unsafe { raw::raccoon_sample_uniform(bytes.as_ptr(), bytes.len(), words.as_mut_ptr(), words.len()) }
}

/// The challenge sampler over lent bytes: its status. With 0 the coefficients hold the polynomial, else they are as they were.
pub fn sample_challenge(set: u32, bytes: &[u8], coefficients: &mut [i8]) -> u32 {
    unsafe { raw::raccoon_sample_challenge(set, bytes.as_ptr(), bytes.len(), coefficients.as_mut_ptr(), coefficients.len()) }
}

/// Key generation: its status. With 0 the result holds the signing key, else it is as it was; the work buffer is zero with 0, 10 and 20.
pub fn keygen(edition: Edition, set: u32, shares: u32, seeds: &[u8], mask_seed: &[u8], key: &mut [u8], work: &mut [u64]) -> u32 {
    let call = match edition {
        Edition::Printed => raw::raccoon_keygen,
        Edition::Kat => raw::raccoon_kat_keygen,
    };
    unsafe {
        call(
            set,
            shares,
            seeds.as_ptr(),
            seeds.len(),
            mask_seed.as_ptr(),
            mask_seed.len(),
            key.as_mut_ptr(),
            key.len(),
            work.as_mut_ptr(),
            work.len(),
        )
    }
}

/// Expanding a signing key: its status. With 0 the results hold the expanded key, else they are as they were.
pub fn expand_key(edition: Edition, set: u32, shares: u32, key: &[u8], bytes: &mut [u8], words: &mut [u64]) -> u32 {
    let call = match edition {
        Edition::Printed => raw::raccoon_expand_key,
        Edition::Kat => raw::raccoon_kat_expand_key,
    };
    unsafe { call(set, shares, key.as_ptr(), key.len(), bytes.as_mut_ptr(), bytes.len(), words.as_mut_ptr(), words.len()) }
}

/// A new sharing of an expanded key: its status, and the results as in [`expand_key`].
pub fn refresh_key(set: u32, shares: u32, key: (&[u8], &[u64]), mask_seed: &[u8], bytes: &mut [u8], words: &mut [u64]) -> u32 {
    unsafe {
        raw::raccoon_refresh_key(
            set,
            shares,
            key.0.as_ptr(),
            key.0.len(),
            key.1.as_ptr(),
            key.1.len(),
            mask_seed.as_ptr(),
            mask_seed.len(),
            bytes.as_mut_ptr(),
            bytes.len(),
            words.as_mut_ptr(),
            words.len(),
        )
    }
}

/// Verifying: its status. It is lent nothing to write.
pub fn verify(edition: Edition, set: u32, public_key: &[u8], message: &[u8], signature: &[u8]) -> u32 {
    let call = match edition {
        Edition::Printed => raw::raccoon_verify,
        Edition::Kat => raw::raccoon_kat_verify,
    };
    unsafe {
        call(set, public_key.as_ptr(), public_key.len(), message.as_ptr(), message.len(), signature.as_ptr(), signature.len())
    }
}

/// What a signing call from seeds is lent, for all its attempts: with a status other than 0 the numbers are 0.
#[repr(C)]
#[derive(Clone, Copy, PartialEq, Eq, Debug)]
pub struct SigningLengths {
    pub status: u32,
    pub noise_seed_bytes: u64,
    pub mask_seed_bytes: u64,
    pub work_words: u64,
}

/// The lengths of a signing call from seeds.
pub fn lengths(set: u32, shares: u32, attempts: u32) -> SigningLengths {
    unsafe { raw::raccoon_lengths(set, shares, attempts) }
}

/// How many bits a signature takes before it is filled with zeros: with a status other than 0 the number is 0.
#[repr(C)]
#[derive(Clone, Copy, PartialEq, Eq, Debug)]
pub struct Bits {
    pub status: u32,
    pub bits: u64,
}

/// The bits of a signature with this hint and response. It is lent nothing to write.
pub fn signature_bits(set: u32, hint: &[i8], response: &[i64]) -> Bits {
    unsafe { raw::raccoon_signature_bits(set, hint.as_ptr(), hint.len(), response.as_ptr(), response.len()) }
}

/// What reading a slip gives: the verdict, and the fields, text and signature by place. With 17, 18 and 19 every field is 0; with any other
/// status, refusals of the verifier too, all are told.
#[repr(C)]
#[derive(Clone, Copy, Debug, Default, PartialEq, Eq)]
pub struct ReadSlip {
    pub status: u32,
    pub movement: u16,
    pub track: u8,
    pub set: u32,
    pub text_at: usize,
    pub text_len: usize,
    pub signature_at: usize,
    pub signature_len: usize,
}

/// Reading a slip and verifying it by the printed text. It is lent nothing to write.
pub fn read_slip(public_key: &[u8], slip: &[u8]) -> ReadSlip {
    unsafe { raw::raccoon_read_slip(public_key.as_ptr(), public_key.len(), slip.as_ptr(), slip.len()) }
}

/// Writing a slip: its status. With 0 the result holds the slip, else it is as it was. What the signature holds is not looked at.
pub fn write_slip(movement: u16, track: u8, text: &[u8], signature: &[u8], slip_out: &mut [u8]) -> u32 {
    unsafe {
        raw::raccoon_write_slip(
            movement,
            track,
            text.as_ptr(),
            text.len(),
            signature.as_ptr(),
            signature.len(),
            slip_out.as_mut_ptr(),
            slip_out.len(),
        )
    }
}

/// What signing reports: the status, and the attempt that passed (with 12 all attempts, with 11 and 20 the attempt that met it, else 0).
#[repr(C)]
#[derive(Clone, Copy, PartialEq, Eq, Debug)]
pub struct Signed {
    pub status: u32,
    pub attempts: u32,
}

/// A key that is lent to signing: a signing key, or the bytes and words of an expanded key.
#[derive(Clone, Copy)]
pub enum Key<'a> {
    Packed(&'a [u8]),
    Expanded(&'a [u8], &'a [u64]),
}

/// What signing is lent to read. Noise and masks are those of all attempts.
#[derive(Clone, Copy)]
pub struct Signing<'a> {
    pub set: u32,
    pub shares: u32,
    pub attempts: u32,
    pub key: Key<'a>,
    pub message: &'a [u8],
    pub noise: Noise<'a>,
    pub mask_seeds: &'a [u8],
}

/// Signing. With 0 the result holds the signature, else it is as it was; the work buffer is zero but after refusals 1 to 8.
///
/// # Panics
/// In the edition of the response files, which signs with a signing key and noise seeds only, if lent anything else.
pub fn sign(edition: Edition, input: &Signing, signature: &mut [u8], work: &mut [u64]) -> Signed {
    let &Signing { set, shares, attempts, key, message, noise, mask_seeds } = input;
    let (out, out_len, work, work_len) = (signature.as_mut_ptr(), signature.len(), work.as_mut_ptr(), work.len());
    // an export with what it is lent to read, each slice as pointer and length
    macro_rules! call {
        ($export:ident, $($slice:expr),*) => {
            unsafe { raw::$export(set, shares, attempts, $($slice.as_ptr(), $slice.len(),)* out, out_len, work, work_len) }
        };
    }
    match (edition, key, noise) {
        (Edition::Printed, Key::Packed(k), Noise::Seeds(n)) => call!(raccoon_sign, k, message, n, mask_seeds),
        (Edition::Printed, Key::Packed(k), Noise::Words(n)) => call!(raccoon_sign_explicit, k, message, n, mask_seeds),
        (Edition::Printed, Key::Expanded(b, w), Noise::Seeds(n)) => call!(raccoon_sign_expanded, b, w, message, n, mask_seeds),
        (Edition::Printed, Key::Expanded(b, w), Noise::Words(n)) => {
            call!(raccoon_sign_expanded_explicit, b, w, message, n, mask_seeds)
        }
        (Edition::Kat, Key::Packed(k), Noise::Seeds(n)) => call!(raccoon_kat_sign, k, message, n, mask_seeds),
        (Edition::Kat, _, _) => panic!("the edition of the response files has no such call"),
    }
}
