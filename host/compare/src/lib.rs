//! The proved code beside the independent implementation.
//!
//! * [`mod@unit`]: the proved code, called through its C exports with slices of any length.
//! * [`expect`]: what each call has to answer, for arguments of any kind.
//! * [`case`]: a call with all that it is lent, put to both and compared.
//! * [`pool`], [`fuzz`]: random and damaged cases.
//! * [`bounds`]: fields of a signature at its bounds, and just above.
//! * [`layout`]: packed numbers, draws, the digest in an expanded key, and polynomials in shares.
//! * [`known`]: the known answers of the data files.
//! * [`response`]: the submission's response files.
//! * [`random`]: a small seeded generator for tests.
//! * [`permutations`]: how many Keccak permutations each call takes.
//! * [`speed`]: the speed report.

pub use independent;

pub mod bounds;
pub mod case;
pub mod expect;
pub mod fuzz;
pub mod known;
pub mod layout;
pub mod permutations;
pub mod pool;
pub mod random;
pub mod response;
pub mod speed;
pub mod unit;
