//! What a file is: a slip by its leading bytes, a key or a signature by its length, since no two kinds of them have the same.

use raccoon::{Params, Set, Shares, Slip};
use std::fmt;

/// A kind of file.
#[derive(Clone, Copy, PartialEq, Eq, Debug)]
pub enum Kind {
    SigningKey(Params),
    ExpandedKey(Params),
    PublicKey(Set),
    Signature(Set),
    Slip(Set),
}

/// The longest file of all kinds.
pub const LONGEST: usize = Params::new(Set::Raccoon256, Shares::ThirtyTwo).expanded_key_bytes();

impl Kind {
    /// Keys and signatures.
    pub fn with_a_length() -> impl Iterator<Item = Kind> {
        let keys = Params::all().map(Kind::SigningKey).chain(Params::all().map(Kind::ExpandedKey));
        keys.chain(Set::ALL.map(Kind::PublicKey)).chain(Set::ALL.map(Kind::Signature))
    }

    /// None of a slip, whose text may be longer or shorter.
    pub fn bytes(self) -> Option<usize> {
        match self {
            Kind::SigningKey(params) => Some(params.signing_key_bytes()),
            Kind::ExpandedKey(params) => Some(params.expanded_key_bytes()),
            Kind::PublicKey(set) => Some(set.public_key_bytes()),
            Kind::Signature(set) => Some(set.signature_bytes()),
            Kind::Slip(_) => None,
        }
    }

    pub fn set(self) -> Set {
        match self {
            Kind::SigningKey(params) | Kind::ExpandedKey(params) => params.set,
            Kind::PublicKey(set) | Kind::Signature(set) | Kind::Slip(set) => set,
        }
    }
}

/// The kind of a file. A slip of set 192 may be as long as a signing key of set 128, so leading bytes and length that fit a slip are asked for
/// first; that a key begins so has odds of 2^-56.
pub fn kind_of(file: &[u8]) -> Option<Kind> {
    match Slip::look(file) {
        Ok(slip) => Some(Kind::Slip(slip.fields().set())),
        Err(_) => kind_of_length(file.len()),
    }
}

/// The kind of key or signature that has this length.
fn kind_of_length(bytes: usize) -> Option<Kind> {
    Kind::with_a_length().find(|kind| kind.bytes() == Some(bytes))
}

/// The expanded key that had this length before the digest was kept in it: public key and words alone. No kind of today has it.
pub fn without_digest(bytes: usize) -> Option<Kind> {
    Params::all().find(|params| params.expanded_key_bytes() - params.set.digest_bytes() == bytes).map(Kind::ExpandedKey)
}

impl fmt::Display for Kind {
    fn fmt(&self, f: &mut fmt::Formatter) -> fmt::Result {
        let (name, shares) = match self {
            Kind::SigningKey(params) => ("signing key", Some(params.shares.count())),
            Kind::ExpandedKey(params) => ("expanded key", Some(params.shares.count())),
            Kind::PublicKey(_) => ("public key", None),
            Kind::Signature(_) => ("signature", None),
            Kind::Slip(_) => ("slip", None),
        };
        write!(f, "{name} of set {}", self.set().number())?;
        match shares {
            Some(1) => write!(f, " with 1 share"),
            Some(n) => write!(f, " with {n} shares"),
            None => Ok(()),
        }
    }
}

#[cfg(test)]
mod tests {
    use super::*;
    use raccoon::{MAX_TEXT_BYTES, Signature};
    use std::collections::HashSet;

    #[test]
    fn all_lengths_differ() {
        let lengths: Vec<usize> = Kind::with_a_length().filter_map(Kind::bytes).collect();
        assert_eq!(lengths.len(), 18 * 2 + 3 + 3);
        assert_eq!(lengths.iter().collect::<HashSet<_>>().len(), lengths.len());
        assert_eq!(lengths.iter().max(), Some(&LONGEST));
    }

    #[test]
    fn each_length_gives_its_kind() {
        for kind in Kind::with_a_length() {
            let bytes = kind.bytes().unwrap();
            assert_eq!((kind_of_length(bytes), kind_of(&vec![0; bytes])), (Some(kind), Some(kind)));
        }
        for bytes in [0, 1, 2255, 2257, 11523, 14801, LONGEST + 1] {
            assert_eq!(kind_of_length(bytes), None);
        }
    }

    /// A slip of this set with a text of n bytes.
    fn slip(set: Set, n: usize) -> Vec<u8> {
        let signature = Signature::from_bytes(set, &vec![0; set.signature_bytes()]).unwrap();
        raccoon::Slip::new(17, 4, &vec![b'.'; n], signature).unwrap().to_bytes()
    }

    /// Five lengths of slips are also lengths of signing keys: those are told apart by the leading bytes.
    #[test]
    fn slips_are_known_by_their_leading_bytes() {
        let mut shared = vec![];
        for (set, n) in Set::ALL.into_iter().flat_map(|set| (0..=MAX_TEXT_BYTES).map(move |n| (set, n))) {
            let mut file = slip(set, n);
            assert_eq!(kind_of(&file), Some(Kind::Slip(set)));
            assert_eq!(without_digest(file.len()), None);
            file[0] ^= 1;
            assert_eq!(kind_of(&file), kind_of_length(file.len()));
            shared.extend(kind_of(&file).map(|kind| (set, n, kind.to_string())));
        }
        let expected = [(246, "1 share"), (262, "2 shares"), (294, "4 shares"), (358, "8 shares"), (486, "16 shares")];
        assert_eq!(shared, expected.map(|(n, shares)| (Set::Raccoon192, n, format!("signing key of set 128 with {shares}"))));
    }

    #[test]
    fn keys_without_a_digest_have_lengths_of_their_own() {
        let mut old = HashSet::new();
        for params in Params::all() {
            let bytes = params.set.public_key_bytes() + 8 * params.share_words();
            assert_eq!((without_digest(bytes), kind_of_length(bytes)), (Some(Kind::ExpandedKey(params)), None), "{params}");
            assert!(old.insert(bytes), "{params}");
        }
        Kind::with_a_length().for_each(|kind| assert_eq!(without_digest(kind.bytes().unwrap()), None, "{kind}"));
        assert_eq!(without_digest(67_792), Some(Kind::ExpandedKey(Params::new(Set::Raccoon128, Shares::Four))));
        assert_eq!([0, 2256, 67_791, 67_793].map(without_digest), [None; 4]);
    }

    #[test]
    fn names() {
        let four = Params::new(Set::Raccoon128, Shares::Four);
        assert_eq!(Kind::SigningKey(four).to_string(), "signing key of set 128 with 4 shares");
        assert_eq!(Kind::ExpandedKey(Params { shares: Shares::One, ..four }).to_string(), "expanded key of set 128 with 1 share");
        assert_eq!(Kind::Signature(Set::Raccoon192).to_string(), "signature of set 192");
        assert_eq!(Kind::Slip(Set::Raccoon256).to_string(), "slip of set 256");
    }
}
