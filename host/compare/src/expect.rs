//! What each call of the unit has to answer, whatever the numbers, lengths and contents: the checks of paper 01, in the order in
//! which it puts them to that call, and the independent implementation behind them.
//!
//! The functions are those of [`crate::unit`], argument for argument. They give the status (signing: the attempts too; lengths and bits: 0
//! with a refusal; a slip's fields: 0 with a refusal of its own) and leave result and work buffer as the unit has to leave them: a result is
//! written with 0 only, and a work buffer is zero after all ends but refusals 1 to 8.
//!
//! The functions `.._from` are told what each mask seed stands for. No seed is known that gets 20; a lent stream in its place can.

use crate::layout::{bits, full_share, share_words};
use crate::unit::{Bits, Key, ReadSlip, Signed, Signing, SigningLengths};
use independent::masks::{Checked, Masks};
use independent::raccoon::{self as independent_raccoon, Edition, Noise, Params, challenge, expand, refresh, with_digest};
use independent::ring::{N, Q, sample_q};
use independent::slip::{self, Slip};

fn ask(number: u32, yes: bool) -> Checked {
    if yes { Ok(()) } else { Err(number) }
}

/// The status. With 0 the result is written.
fn status<T>(asked: Checked<T>, write: impl FnOnce(T)) -> u32 {
    asked.map(write).map_or_else(|number| number, |()| 0)
}

/// A work buffer is zero after all ends but refusals 1 to 8.
fn clear(status: u32, work: &mut [u64]) {
    if !(1..=8).contains(&status) {
        work.fill(0);
    }
}

/// Checks 1 and 2.
fn params(edition: Edition, set: u32, shares: u32) -> Checked<Params> {
    ask(1, [128, 192, 256].contains(&set))?;
    ask(2, [1, 2, 4, 8, 16, 32].contains(&shares))?;
    Ok(Params::new(set as usize, shares as usize, edition).expect("a column of the tables"))
}

/// Checks 3, 4 and 5.
fn ask_key(p: &Params, key: Key) -> Checked {
    let public_good = |bytes: &[u8]| (0..p.k * N).all(|i| bits(bytes, 8 * p.seed_bytes() + 7 * i, 7) < 125);
    match key {
        Key::Packed(key) => {
            ask(3, key.len() == p.sk_bytes())?;
            ask(4, public_good(key))?;
            ask(5, (0..p.l * N).all(|i| bits(key, full_share(p) + 49 * i, 49) < Q))
        }
        Key::Expanded(bytes, words) => {
            ask(3, bytes.len() == p.expanded_bytes() && words.len() == share_words(p))?;
            ask(4, public_good(bytes))?;
            ask(5, words.iter().all(|&word| word < Q))
        }
    }
}

/// Key generation: checks 1, 2, 7, 8, 10, 20.
pub fn keygen(edition: Edition, set: u32, shares: u32, seeds: &[u8], mask_seed: &[u8], key: &mut [u8], work: &mut [u64]) -> u32 {
    keygen_from(Masks::Seed, edition, (set, shares), seeds, mask_seed, key, work)
}

/// [`keygen`], told what the mask seed stands for.
pub fn keygen_from<'a>(
    masks: impl Fn(&'a [u8]) -> Masks<'a>,
    edition: Edition,
    (set, shares): (u32, u32),
    seeds: &[u8],
    mask_seed: &'a [u8],
    key: &mut [u8],
    work: &mut [u64],
) -> u32 {
    let made = || -> Checked<Vec<u8>> {
        let p = params(edition, set, shares)?;
        ask(7, seeds.len() == p.keygen_bytes() && mask_seed.len() == 32)?;
        ask(8, key.len() == p.sk_bytes() && work.len() == p.work_words())?;
        independent_raccoon::keygen(&p, seeds, masks(mask_seed))
    };
    let status = status(made(), |made| key.copy_from_slice(&made));
    clear(status, work);
    status
}

/// Expanding a signing key: checks 1, 2, 3, 4, 5, 8, 10.
pub fn expand_key(edition: Edition, set: u32, shares: u32, key: &[u8], bytes: &mut [u8], words: &mut [u64]) -> u32 {
    let made = || -> Checked<(Vec<u8>, Vec<u64>)> {
        let p = params(edition, set, shares)?;
        ask_key(&p, Key::Packed(key))?;
        ask(8, bytes.len() == p.expanded_bytes() && words.len() == share_words(&p))?;
        Ok((with_digest(&p, &key[..p.vk_bytes()]), expand(&p, key).ok_or(10u32)?))
    };
    status(made(), |made| {
        bytes.copy_from_slice(&made.0);
        words.copy_from_slice(&made.1);
    })
}

/// Refreshing an expanded key: checks 1, 2, 3, 4, 5, 7, 8, 20. Public key and digest are carried on.
pub fn refresh_key(set: u32, shares: u32, key: (&[u8], &[u64]), mask_seed: &[u8], bytes: &mut [u8], words: &mut [u64]) -> u32 {
    refresh_key_from(Masks::Seed, (set, shares), key, mask_seed, bytes, words)
}

/// [`refresh_key`], told what the mask seed stands for.
pub fn refresh_key_from<'a>(
    masks: impl Fn(&'a [u8]) -> Masks<'a>,
    (set, shares): (u32, u32),
    key: (&[u8], &[u64]),
    mask_seed: &'a [u8],
    bytes: &mut [u8],
    words: &mut [u64],
) -> u32 {
    let made = || -> Checked<Vec<u64>> {
        let p = params(Edition::Printed, set, shares)?;
        ask_key(&p, Key::Expanded(key.0, key.1))?;
        ask(7, mask_seed.len() == 32)?;
        ask(8, bytes.len() == p.expanded_bytes() && words.len() == share_words(&p))?;
        refresh(&p, key.1, masks(mask_seed))
    };
    status(made(), |made| {
        bytes.copy_from_slice(key.0);
        words.copy_from_slice(&made);
    })
}

/// Check 7 of signing: the noise, attempt by attempt.
fn noise_of<'a>(p: &Params, attempts: usize, noise: Noise<'a>) -> Checked<Vec<Noise<'a>>> {
    match noise {
        Noise::Seeds(seeds) => {
            ask(7, seeds.len() == attempts * p.noise_bytes())?;
            Ok(seeds.chunks_exact(p.noise_bytes()).map(Noise::Seeds).collect())
        }
        Noise::Words(words) => {
            ask(7, words.len() == attempts * p.noise_words() && words.iter().all(|&word| word < Q))?;
            Ok(words.chunks_exact(p.noise_words()).map(Noise::Words).collect())
        }
    }
}

/// Status, attempts and signature, or one of the checks 1 to 10.
fn signed<'a>(
    masks: impl Fn(&'a [u8]) -> Masks<'a>,
    edition: Edition,
    input: &Signing<'a>,
    signature: usize,
    work: usize,
) -> Checked<(u32, u32, Option<Vec<u8>>)> {
    let p = params(edition, input.set, input.shares)?;
    ask_key(&p, input.key)?;
    ask(6, (1..=16).contains(&input.attempts))?;
    let attempts = input.attempts as usize;
    let noise = noise_of(&p, attempts, input.noise)?;
    ask(7, input.mask_seeds.len() == 32 * attempts)?;
    ask(8, signature == p.sig_bytes && work == p.work_words())?;
    ask(9, input.message.len() <= 4096)?;
    let (bytes, words) = match input.key {
        Key::Packed(key) => (with_digest(&p, &key[..p.vk_bytes()]), expand(&p, key).ok_or(10u32)?),
        Key::Expanded(bytes, words) => (bytes.to_vec(), words.to_vec()),
    };
    let attempts: Vec<(Noise, Masks)> = noise.into_iter().zip(input.mask_seeds.chunks_exact(32).map(masks)).collect();
    Ok(independent_raccoon::sign(&p, &bytes, &words, input.message, &attempts))
}

/// Signing: checks 1 to 10, then 20 and 11 within each attempt, then 12. 20 is put of the masks before the challenge ahead of 11, of those
/// behind it behind 11.
pub fn sign(edition: Edition, input: &Signing, signature: &mut [u8], work: &mut [u64]) -> Signed {
    sign_from(Masks::Seed, edition, input, signature, work)
}

/// [`sign`], told what each mask seed stands for.
pub fn sign_from<'a>(
    masks: impl Fn(&'a [u8]) -> Masks<'a>,
    edition: Edition,
    input: &Signing<'a>,
    signature: &mut [u8],
    work: &mut [u64],
) -> Signed {
    let made = signed(masks, edition, input, signature.len(), work.len());
    let (status, attempts, made) = made.unwrap_or_else(|number| (number, 0, None));
    if let Some(made) = made {
        signature.copy_from_slice(&made);
    }
    clear(status, work);
    Signed { status, attempts }
}

/// Verifying: checks 1, 3, 4, 9, 13, 14, 15, 10, 11, 16. The independent implementation puts them all.
pub fn verify(edition: Edition, set: u32, public_key: &[u8], message: &[u8], signature: &[u8]) -> u32 {
    independent_raccoon::verify(set as usize, edition, public_key, message, signature)
}

/// The uniform sampler: checks 8, 10.
pub fn sample_uniform(bytes: &[u8], words: &mut [u64]) -> u32 {
    let made = ask(8, words.len() == N).and_then(|()| sample_q(bytes).ok_or(10));
    status(made, |made| words.copy_from_slice(&made))
}

/// The challenge sampler: checks 1, 8, 11.
pub fn sample_challenge(set: u32, bytes: &[u8], coefficients: &mut [i8]) -> u32 {
    let made = || -> Checked<[i8; N]> {
        let p = params(Edition::Printed, set, 1)?;
        ask(8, coefficients.len() == N)?;
        challenge(p.edition, p.omega, bytes).ok_or(11)
    };
    status(made(), |made| coefficients.copy_from_slice(&made))
}

/// The lengths of a signing call: checks 1, 2, 6.
pub fn lengths(set: u32, shares: u32, attempts: u32) -> SigningLengths {
    let refused = |status| SigningLengths { status, noise_seed_bytes: 0, mask_seed_bytes: 0, work_words: 0 };
    let told = |lengths: independent_raccoon::Lengths| SigningLengths {
        status: 0,
        noise_seed_bytes: lengths.noise_seed_bytes as u64,
        mask_seed_bytes: lengths.mask_seed_bytes as u64,
        work_words: lengths.work_words as u64,
    };
    independent_raccoon::lengths(set as usize, shares as usize, attempts as usize).map_or_else(refused, told)
}

/// The bits of a signature: checks 1, 13.
pub fn signature_bits(set: u32, hint: &[i8], response: &[i64]) -> Bits {
    match independent_raccoon::signature_bits(set as usize, hint, response) {
        Ok(bits) => Bits { status: 0, bits: bits.try_into().expect("a number of 64 bits") },
        Err(status) => Bits { status, bits: 0 },
    }
}

/// Reading a slip: checks 17, 18 and 19, then those of verifying. The independent implementation puts them all.
pub fn read_slip(public_key: &[u8], slip: &[u8]) -> ReadSlip {
    let refused = |status| ReadSlip { status, ..ReadSlip::default() };
    let said = |(said, status): (Slip, u32)| ReadSlip {
        status,
        movement: said.movement,
        track: said.track,
        set: said.set as u32,
        text_at: said.text.start,
        text_len: said.text.len(),
        signature_at: said.signature.start,
        signature_len: said.signature.len(),
    };
    slip::read(public_key, slip).map_or_else(refused, said)
}

/// Writing a slip: checks 19, 8.
pub fn write_slip(movement: u16, track: u8, text: &[u8], signature: &[u8], slip: &mut [u8]) -> u32 {
    let made = slip::write(movement, track, text, signature).and_then(|made| {
        ask(8, slip.len() == made.len())?;
        Ok(made)
    });
    status(made, |made| slip.copy_from_slice(&made))
}
