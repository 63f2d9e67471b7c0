//! Raccoon signatures by the proved unit.
//!
//! The types keep lengths right: a key, a signature or a set of seeds cannot be made with a wrong length, so of the refusals of the unit only
//! those remain that speak of contents. Seeds are given away with the call that uses them, so that none is used twice, and what is secret is
//! wiped when it is dropped.
//!
//! ```
//! use raccoon::{os_random, KeygenSeeds, Params, Set, Shares, SigningKey, SigningSeeds};
//!
//! # fn main() -> Result<(), Box<dyn std::error::Error>> {
//! let params = Params::new(Set::Raccoon128, Shares::Four);
//! let key = SigningKey::generate(KeygenSeeds::draw(params, os_random)?)?;
//! let signed = key.sign(b"release tram 17", SigningSeeds::new(params).draw(os_random)?)?;
//! key.public_key().verify(b"release tram 17", &signed.signature)?;
//!
//! let refusal = key.public_key().verify(b"release tram 18", &signed.signature).unwrap_err();
//! assert_eq!(refusal.number(), 16);
//! assert_eq!(refusal.to_string(), "16: Is the recomputed challenge hash equal? No.");
//! # Ok(())
//! # }
//! ```
//!
//! * [`Params`]: set and share count, and the sizes that follow from them.
//! * [`Lengths`]: what a signing call takes, asked of the unit, as is [`Set::signature_bits`].
//! * [`SigningKey`], [`ExpandedKey`], [`PublicKey`], [`Signature`]: the byte forms of paper 000, section 2.5.
//! * [`Slip`]: an order with its signature in one file (paper 02, request #101).
//! * [`Secret`]: bytes or words that are wiped when they are dropped.
//! * [`KeygenSeeds`], [`SigningSeeds`], [`ExplicitNoise`]: what a call is lent besides.
//! * [`Refusal`]: the numbers and their checks.
//! * [`call`]: the calls themselves, on slices of any length.
//!
//! All follow the printed text of the submission; the edition of its response files is in [`call`] alone.

pub mod call;

mod keys;
mod lengths;
mod params;
mod refusal;
mod secret;
mod seeds;
mod sign;
mod slip;

pub use keys::{ExpandedKey, PublicKey, Signature, SigningKey};
pub use lengths::Lengths;
pub use params::{MASK_SEED_BYTES, MAX_ATTEMPTS, MAX_MESSAGE_BYTES, N, Params, Q, Set, Shares};
pub use refusal::Refusal;
pub use secret::Secret;
pub use seeds::{ExplicitNoise, KeygenSeeds, SigningSeeds, SigningSeedsBuilder, os_random};
pub use sign::{NotSigned, Signed};
pub use slip::{MAX_TEXT_BYTES, NotRead, SignedSlip, Slip, UnverifiedSlip};
