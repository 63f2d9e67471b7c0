//! The independent implementation against the known answers of paper 01's calls.

use compare::independent::masks::Masks;
use compare::independent::raccoon::{Edition, Noise, Params, expand, keygen, refresh, sign, verify, with_digest};
use compare::independent::ring::N;
use compare::known::{digest, known, word_bytes, words_modulo_q, xof};
use compare::layout::{draws, encoding_masks};

/// Of an expanded key as the known answers have it, without the digest of its public key.
fn expanded_digest(vk: &[u8], words: &[u64]) -> String {
    digest(&[vk.to_vec(), word_bytes(words)].concat())
}

#[test]
fn keys_and_signatures_of_the_known_calls() {
    for d in [1, 2, 4, 8] {
        let p = Params::new(128, d, Edition::Printed).unwrap();
        let name = format!("128-{d}");
        let mask = xof("mask", 32);
        let key = keygen(&p, &xof(&format!("tape {name}"), p.keygen_bytes()), Masks::Seed(&mask)).unwrap();
        assert_eq!(key.len(), p.sk_bytes());
        assert_eq!(format!("0 {}", digest(&key)), known(&format!("{name} keygen")));
        let words = expand(&p, &key).unwrap();
        let vk = &key[..p.vk_bytes()];
        assert_eq!(format!("0 {}", expanded_digest(vk, &words)), known(&format!("{name} open")));
        let fresh = refresh(&p, &words, Masks::Seed(&mask)).unwrap();
        assert_eq!(format!("0 {}", expanded_digest(vk, &fresh)), known(&format!("{name} refresh")));
        if d > 1 {
            // the order of the masking words, by the answer for words modulo q
            let modulo_q = draws(&words_modulo_q(&mask, p.l * encoding_masks(d) * N));
            let fresh = refresh(&p, &words, Masks::Lent(&modulo_q)).unwrap();
            assert_eq!(format!("0 {}", expanded_digest(vk, &fresh)), known(&format!("{name} refresh, words modulo q")));
        }
        let message = xof("message", 100);
        let noise = xof(&format!("noise {name}"), 2 * p.noise_bytes());
        let attempts: Vec<_> = noise.chunks_exact(p.noise_bytes()).map(|n| (Noise::Seeds(n), Masks::Seed(&mask))).collect();
        for (call, shares) in [("sign", &words), ("sign refreshed", &fresh)] {
            let (status, tries, signature) = sign(&p, &with_digest(&p, vk), shares, &message, &attempts);
            let signature = signature.unwrap();
            assert_eq!(format!("{status} {tries} {}", digest(&signature)), known(&format!("{name} {call}")));
            assert_eq!(verify(128, Edition::Printed, vk, &message, &signature), 0);
        }
    }
}
