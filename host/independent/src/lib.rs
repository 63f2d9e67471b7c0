//! Raccoon from paper 000, SHAKE256 from FIPS 202 and release slips from paper 02, written from the papers and not from the proved code, to
//! compare with. Nothing here is meant for secrets.

pub mod drbg;
pub mod keccak;
pub mod masks;
pub mod raccoon;
pub mod ring;
pub mod sha256;
pub mod slip;
