//! Raccoon from paper 000, with the refusals and seeds of paper 01, written for comparison and not for speed or secrecy. Polynomials are
//! arrays of 512 words below q; a sharing is a vector of d polynomials.

use crate::keccak::Shake256;
use crate::masks::{Checked, MaskGenerator, Masks};
use crate::ring::{N, Poly, Q, Tables, add, sample_q, sub};

/// Which text of Algorithms 9, 10, 14 and 15 is followed: the printed one, or that of the response files.
#[derive(Clone, Copy, PartialEq, Eq, Debug)]
pub enum Edition {
    Printed,
    Kat,
}

/// A column of Tables 2 to 4.
#[derive(Clone, Copy, Debug)]
pub struct Params {
    pub kappa: usize,
    pub d: usize,
    pub k: usize,
    pub l: usize,
    pub omega: usize,
    pub b22: u64,
    pub binf: u64,
    pub rep: usize,
    pub ut: usize,
    pub uw: usize,
    pub sig_bytes: usize,
    /// The most draws of a uniform polynomial, 777. Tests of the order of checks allow fewer than can fill one.
    pub uniform_draws: usize,
    pub edition: Edition,
}

impl Params {
    pub fn new(set: usize, d: usize, edition: Edition) -> Option<Params> {
        let (k, l, omega, b22, binf, sig_bytes, ut) = match set {
            128 => (5, 4, 19, 14_656_575_897, 41_954_689_765_971, 11_524, 6),
            192 => (7, 5, 31, 24_964_497_408, 47_419_426_657_048, 14_544, 7),
            256 => (9, 7, 44, 38_439_957_299, 50_958_538_642_039, 20_330, 6),
            _ => return None,
        };
        let (rep, less) = match d {
            1 => (8, 0),
            2 => (4, 0),
            4 => (2, 0),
            8 => (4, 1),
            16 => (2, 1),
            32 => (4, 2),
            _ => return None,
        };
        let (ut, uw) = (ut - less, 41 - less);
        Some(Params { kappa: set, d, k, l, omega, b22, binf, rep, ut, uw, sig_bytes, uniform_draws: 777, edition })
    }

    pub fn seed_bytes(&self) -> usize {
        self.kappa / 8
    }
    pub fn hash_bytes(&self) -> usize {
        self.kappa / 4
    }
    pub fn vk_bytes(&self) -> usize {
        self.seed_bytes() + self.k * 448
    }
    /// Bytes of an expanded key: the public key and its digest.
    pub fn expanded_bytes(&self) -> usize {
        self.vk_bytes() + self.hash_bytes()
    }
    pub fn sk_bytes(&self) -> usize {
        self.vk_bytes() + (self.d - 1) * self.seed_bytes() + self.l * 3136
    }
    pub fn noise_bytes(&self) -> usize {
        (self.l + self.k) * self.d * self.rep * self.seed_bytes()
    }
    pub fn keygen_bytes(&self) -> usize {
        self.d * self.seed_bytes() + self.noise_bytes()
    }
    pub fn noise_words(&self) -> usize {
        (self.l + self.k) * self.d * N
    }
    pub fn work_words(&self) -> usize {
        N * (2 * self.l * self.d + 4 * self.d + 2 * self.k + 8)
    }
    pub fn hint_limit(&self) -> u64 {
        (self.binf + (1 << 43)) >> 44
    }
}

/// What a signing call from seeds is lent besides key and message, for all its attempts.
#[derive(Clone, Copy, PartialEq, Eq, Debug)]
pub struct Lengths {
    pub noise_seed_bytes: usize,
    pub mask_seed_bytes: usize,
    pub work_words: usize,
}

/// The lengths of a signing call, or the first of checks 1, 2 and 6 that is answered with no (paper 02, request #103). Noise seeds and mask
/// seeds are for each attempt anew, the work buffer serves all of them.
pub fn lengths(set: usize, d: usize, attempts: usize) -> Checked<Lengths> {
    Params::new(set, 1, Edition::Printed).ok_or(1u32)?;
    let p = Params::new(set, d, Edition::Printed).ok_or(2u32)?;
    if !(1..=16).contains(&attempts) {
        return Err(6);
    }
    Ok(Lengths { noise_seed_bytes: attempts * p.noise_bytes(), mask_seed_bytes: attempts * 32, work_words: p.work_words() })
}

fn xof(header: &[u8], seed: &[u8]) -> Shake256 {
    let mut xof = Shake256::new();
    xof.absorb(header);
    xof.absorb(seed);
    xof
}

fn hash(parts: &[&[u8]], n: usize) -> Vec<u8> {
    let mut xof = Shake256::new();
    parts.iter().for_each(|part| xof.absorb(part));
    let mut out = vec![0u8; n];
    xof.squeeze(&mut out);
    out
}

/// A sample of the first bytes of a stream, or, where these are too few for it, of all bytes that it may take.
fn sampled<T>(mut xof: Shake256, first: usize, all: usize, sample: impl Fn(&[u8]) -> Option<T>) -> Option<T> {
    let mut stream = vec![0u8; all];
    xof.squeeze(&mut stream[..first]);
    sample(&stream[..first]).or_else(|| {
        xof.squeeze(&mut stream[first..]);
        sample(&stream)
    })
}

/// SampleQ: nothing after 777 draws (check 10). 28 blocks are 544 draws: too few for one polynomial in a million.
fn uniform(p: &Params, header: [u8; 8], seed: &[u8]) -> Option<Poly> {
    let all = 7 * p.uniform_draws;
    sampled(xof(&header, seed), all.min(28 * 136), all, sample_q)
}

/// SampleU: samples of u bits, signed, modulo q.
pub fn sample_u(header: [u8; 8], seed: &[u8], u: usize) -> Poly {
    let width = u.div_ceil(8);
    let mut stream = vec![0u8; width * N];
    xof(&header, seed).squeeze(&mut stream);
    std::array::from_fn(|i| {
        let mut word = [0u8; 8];
        word[..width].copy_from_slice(&stream[width * i..width * (i + 1)]);
        let low = u64::from_le_bytes(word) & ((1 << u) - 1);
        if low >> (u - 1) == 1 { Q - ((1 << u) - low) } else { low }
    })
}

/// The noise of one attempt: seeds, or explicit words (the bench form).
#[derive(Clone, Copy)]
pub enum Noise<'a> {
    Seeds(&'a [u8]),
    Words(&'a [u64]),
}

/// Algorithm 8 at polynomials first .. first + v.len() of the noise, with the header's index from 0.
fn add_rep_noise(p: &Params, v: &mut [Vec<Poly>], first: usize, u: usize, noise: Noise, masks: &mut MaskGenerator) -> Checked {
    for (i, sharing) in v.iter_mut().enumerate() {
        match noise {
            Noise::Seeds(seeds) => {
                for t in 0..p.rep {
                    for (j, share) in sharing.iter_mut().enumerate() {
                        let number = ((first + i) * p.rep + t) * p.d + j;
                        let seed = &seeds[number * p.seed_bytes()..(number + 1) * p.seed_bytes()];
                        *share = add(share, &sample_u([117, t as u8, i as u8, j as u8, 0, 0, 0, 0], seed, u));
                    }
                    masks.refresh(sharing)?;
                }
            }
            Noise::Words(words) => {
                for (j, share) in sharing.iter_mut().enumerate() {
                    let at = ((first + i) * p.d + j) * N;
                    *share = add(share, words[at..at + N].try_into().unwrap());
                }
                masks.refresh(sharing)?;
            }
        }
    }
    Ok(())
}

fn decode(shares: &[Poly]) -> Poly {
    shares.iter().fold([0; N], |sum, x| add(&sum, x))
}

/// ExpandA, transformed.
fn matrix(p: &Params, tables: &Tables, seed: &[u8]) -> Option<Vec<Vec<Poly>>> {
    (0..p.k)
        .map(|i| (0..p.l).map(|j| Some(tables.transform(&uniform(p, [65, i as u8, j as u8, 0, 0, 0, 0, 0], seed)?))).collect())
        .collect()
}

/// The masked product A v of a vector of sharings.
fn masked_product(p: &Params, tables: &Tables, a: &[Vec<Poly>], v: &[Vec<Poly>]) -> Vec<Vec<Poly>> {
    let values: Vec<Vec<Poly>> = v.iter().map(|sharing| sharing.iter().map(|x| tables.transform(x)).collect()).collect();
    a.iter()
        .map(|row| {
            (0..p.d)
                .map(|j| {
                    let sum = row.iter().zip(&values).fold([0; N], |sum, (entry, x)| add(&sum, &Tables::pointwise(entry, &x[j])));
                    tables.inverse(&sum)
                })
                .collect()
        })
        .collect()
}

/// Numbers of w bits, the lowest bit first, into bytes.
fn pack(words: &[u64], w: usize) -> Vec<u8> {
    let mut out = vec![0u8; words.len() * w / 8];
    for (i, word) in words.iter().enumerate() {
        for b in 0..w {
            let at = i * w + b;
            out[at / 8] |= ((word >> b & 1) as u8) << (at % 8);
        }
    }
    out
}

/// The numbers of w bits in bytes.
pub fn unpack(bytes: &[u8], w: usize) -> Vec<u64> {
    (0..bytes.len() * 8 / w)
        .map(|i| (0..w).map(|b| u64::from(bytes[(i * w + b) / 8] >> ((i * w + b) % 8) & 1) << b).sum())
        .collect()
}

fn share_header(edition: Edition, share: usize, poly: usize) -> [u8; 8] {
    match edition {
        Edition::Printed => [75, share as u8, poly as u8, 0, 0, 0, 0, 0],
        Edition::Kat => [75, poly as u8, share as u8, 0, 0, 0, 0, 0],
    }
}

fn round_t(x: u64) -> u64 {
    ((x + (1 << 41)) >> 42) % 125
}

fn round_w(x: u64) -> u64 {
    ((x + (1 << 43)) >> 44) % 31
}

/// Shares 1 to d - 1 of the l polynomials, from their seeds (lines 4 to 6 of Algorithm 14).
fn seeded_shares(p: &Params, seeds: &[u8]) -> Option<Vec<Vec<Poly>>> {
    let seeds = || (1..).zip(seeds.chunks_exact(p.seed_bytes()));
    (0..p.l).map(|j| seeds().map(|(i, seed)| uniform(p, share_header(p.edition, i, j), seed)).collect()).collect()
}

/// Algorithm 1: the signing key, or refusal 10, or 20. Masks are drawn when all uniform polynomials have filled: 10 comes first.
pub fn keygen(p: &Params, seeds: &[u8], masks: Masks) -> Checked<Vec<u8>> {
    let tables = Tables::new();
    let (seed, rest) = seeds.split_at(p.seed_bytes());
    let (noise, share_seeds) = rest.split_at(p.noise_bytes());
    let a = matrix(p, &tables, seed).ok_or(10u32)?;
    let seeded = seeded_shares(p, share_seeds).ok_or(10u32)?;
    let mut masks = MaskGenerator::new(masks);
    let mut s: Vec<Vec<Poly>> = (0..p.l).map(|_| masks.zero_encoding(p.d)).collect::<Checked<_>>()?;
    add_rep_noise(p, &mut s, 0, p.ut, Noise::Seeds(noise), &mut masks)?;
    let mut t = masked_product(p, &tables, &a, &s);
    add_rep_noise(p, &mut t, p.l, p.ut, Noise::Seeds(noise), &mut masks)?;
    let mut key = seed.to_vec();
    let rounded: Vec<u64> = t.iter().flat_map(|sharing| decode(sharing).map(round_t)).collect();
    key.extend(pack(&rounded, 7));
    key.extend(share_seeds);
    for (sharing, seeded) in s.iter().zip(&seeded) {
        let mut x = tables.transform(&sharing[0]);
        for (share, seeded) in sharing[1..].iter().zip(seeded) {
            x = sub(&x, seeded);
            x = add(&x, &tables.transform(share));
        }
        key.extend(pack(&x, 49));
    }
    Ok(key)
}

/// Algorithm 15: the words of all shares, polynomial by polynomial; nothing where a seeded share does not fill (check 10).
pub fn expand(p: &Params, key: &[u8]) -> Option<Vec<u64>> {
    let n = p.seed_bytes();
    let part = &key[p.vk_bytes()..];
    let (seeds, full) = part.split_at((p.d - 1) * n);
    let full = unpack(full, 49);
    let mut words = Vec::with_capacity(p.l * p.d * N);
    for j in 0..p.l {
        words.extend(&full[j * N..(j + 1) * N]);
        for i in 1..p.d {
            words.extend(uniform(p, share_header(p.edition, i, j), &seeds[(i - 1) * n..i * n])?);
        }
    }
    Some(words)
}

/// The bytes of an expanded key: the public key, and behind it its digest, H(vk) of line 2 of Algorithm 2.
pub fn with_digest(p: &Params, vk: &[u8]) -> Vec<u8> {
    [vk, &hash(&[vk], p.hash_bytes())].concat()
}

fn sharings(p: &Params, words: &[u64]) -> Vec<Vec<Poly>> {
    words.chunks_exact(p.d * N).map(|s| s.chunks_exact(N).map(|x| x.try_into().unwrap()).collect()).collect()
}

/// A new sharing of an expanded key, or refusal 20. Its bytes stay what they are.
pub fn refresh(p: &Params, words: &[u64], masks: Masks) -> Checked<Vec<u64>> {
    let mut s = sharings(p, words);
    MaskGenerator::new(masks).refresh_all(&mut s)?;
    Ok(s.concat().concat())
}

/// Algorithm 10 over a stream: nothing after 1,088 draws (check 11).
pub fn challenge(edition: Edition, omega: usize, stream: &[u8]) -> Option<[i8; N]> {
    let mut c = [0i8; N];
    let mut taken = 0;
    for draw in stream.chunks_exact(2).take(1088) {
        let value = u16::from_le_bytes([draw[0], draw[1]]);
        let place = usize::from(value >> 1) % N;
        if c[place] == 0 {
            let minus = if edition == Edition::Printed { 1 } else { 0 };
            c[place] = if value & 1 == minus { -1 } else { 1 };
            taken += 1;
            if taken == omega {
                return Some(c);
            }
        }
    }
    None
}

fn chal_poly(p: &Params, hash: &[u8]) -> Option<[i8; N]> {
    let xof = xof(&[99, p.omega as u8, 0, 0, 0, 0, 0, 0], hash);
    sampled(xof, 136, 1088 * 2, |stream| challenge(p.edition, p.omega, stream))
}

fn chal_hash(p: &Params, w: &[u8], mu: &[u8]) -> Vec<u8> {
    let header = [104, p.k as u8, 0, 0, 0, 0, 0, 0];
    match p.edition {
        Edition::Printed => hash(&[&header, w, mu], p.hash_bytes()),
        Edition::Kat => hash(&[&header, mu, w], p.hash_bytes()),
    }
}

/// What a signature holds.
#[derive(Clone, PartialEq, Eq, Debug)]
pub struct Fields {
    pub hash: Vec<u8>,
    pub hint: Vec<i64>,
    pub response: Vec<i64>,
}

fn centred(x: u64, m: u64) -> i64 {
    if x <= m / 2 { x as i64 } else { -((m - x) as i64) }
}

fn put_code(bits: &mut Vec<bool>, w: u32, z: i64) {
    let a = z.unsigned_abs();
    bits.extend((0..w).map(|b| a >> b & 1 == 1));
    bits.extend(std::iter::repeat_n(true, (a >> w) as usize));
    bits.push(false);
    if a != 0 {
        bits.push(z < 0);
    }
}

/// The bits of the fields before filling (2.5.1).
pub fn form_bits(f: &Fields) -> Vec<bool> {
    let mut bits: Vec<bool> = f.hash.iter().flat_map(|byte| (0..8).map(move |b| byte >> b & 1 == 1)).collect();
    f.hint.iter().for_each(|&z| put_code(&mut bits, 0, z));
    f.response.iter().for_each(|&z| put_code(&mut bits, 40, z));
    bits
}

/// How many bits [`form_bits`] makes of one number: w low bits, a one for each 2^w in it, a zero, and a sign unless it is 0.
fn code_bits(w: u32, z: i64) -> u128 {
    let a = u128::from(z.unsigned_abs());
    let sign = if z == 0 { 0 } else { 1 };
    u128::from(w) + (a >> w) + 1 + sign
}

/// How many bits [`form_bits`] makes of a hash of the set, this hint and this response, or check 1 or 13 (paper 02, request #103). They are
/// counted, not made: the largest numbers take gigabytes.
pub fn signature_bits(set: usize, hint: &[i8], response: &[i64]) -> Checked<u128> {
    let p = Params::new(set, 1, Edition::Printed).ok_or(1u32)?;
    if hint.len() != p.k * N || response.len() != p.l * N {
        return Err(13);
    }
    let hints: u128 = hint.iter().map(|&h| code_bits(0, h.into())).sum();
    let responses: u128 = response.iter().map(|&z| code_bits(40, z)).sum();
    Ok(8 * p.hash_bytes() as u128 + hints + responses)
}

pub fn write(p: &Params, f: &Fields) -> Option<Vec<u8>> {
    let bits = form_bits(f);
    if bits.len() > 8 * p.sig_bytes {
        return None;
    }
    let mut out = vec![0u8; p.sig_bytes];
    bits.iter().enumerate().filter(|(_, &b)| b).for_each(|(i, _)| out[i / 8] |= 1 << (i % 8));
    Some(out)
}

pub fn read(p: &Params, sig: &[u8]) -> Option<Fields> {
    let mut bits = sig.iter().flat_map(|byte| (0..8).map(move |b| byte >> b & 1 == 1)).skip(8 * p.hash_bytes());
    let mut codes = |w: u32, n: usize| -> Option<Vec<i64>> {
        (0..n)
            .map(|_| {
                let mut a = 0i64;
                for b in 0..w {
                    a |= i64::from(bits.next()?) << b;
                }
                while bits.next()? {
                    a += 1 << w;
                }
                if a != 0 && bits.next()? {
                    a = -a;
                }
                Some(a)
            })
            .collect()
    };
    let hint = codes(0, p.k * N)?;
    let response = codes(40, p.l * N)?;
    Some(Fields { hash: sig[..p.hash_bytes()].to_vec(), hint, response })
}

/// Algorithm 4, by the full sums. Where a no is settled early, [`decide_bounds`] says.
pub fn check_bounds(p: &Params, f: &Fields) -> bool {
    let largest = |v: &[i64]| v.iter().map(|z| z.unsigned_abs()).max().unwrap_or(0);
    let squares = |v: &[i64], shift: u32| -> u128 { v.iter().map(|z| u128::from(z.unsigned_abs() >> shift).pow(2)).sum() };
    largest(&f.hint) <= p.hint_limit()
        && largest(&f.response) <= p.binf
        && (squares(&f.hint, 0) << 24) + squares(&f.response, 32) <= u128::from(p.b22)
}

/// The answer of Algorithm 4 where a no is settled early, and how many coefficients it takes: the last of them is the one that decides.
#[derive(Clone, Copy, PartialEq, Eq, Debug)]
pub struct Decision {
    pub passed: bool,
    pub coefficients: usize,
}

/// Algorithm 4 up to the first no, for any limits and numbers: hint, then response, each coefficient against its limit and with it the sum
/// of squares, in units of 2^64, against `b22`. What u128 cannot hold saturates, far above any `b22`.
pub fn decide(hint_limit: u64, binf: u64, b22: u64, hint: &[i64], response: &[i64]) -> Decision {
    let hint_squares =
        hint.iter().map(|h| h.unsigned_abs()).map(|h| (h <= hint_limit, u128::from(h).pow(2).saturating_mul(1 << 24)));
    let squares = response.iter().map(|z| z.unsigned_abs()).map(|z| (z <= binf, u128::from(z >> 32).pow(2)));
    let no = hint_squares
        .chain(squares)
        .scan(0u128, |sum, (within, square)| {
            *sum = sum.saturating_add(square);
            Some(within && *sum <= b22.into())
        })
        .position(|yes| !yes);
    Decision { passed: no.is_none(), coefficients: no.map_or(hint.len() + response.len(), |before| before + 1) }
}

/// The decision on the fields of a set.
pub fn decide_bounds(p: &Params, f: &Fields) -> Decision {
    decide(p.hint_limit(), p.binf, p.b22, &f.hint, &f.response)
}

fn signed(c: &[i8; N]) -> Poly {
    c.map(|x| if x < 0 { Q - 1 } else { x as u64 })
}

/// A z - 2^42 c t, rounded, row by row.
fn commitment(p: &Params, tables: &Tables, a: &[Vec<Poly>], z: &[Poly], c: &Poly, t: &[u64]) -> Vec<u64> {
    let z: Vec<Poly> = z.iter().map(|x| tables.transform(x)).collect();
    let c = tables.transform(c);
    (0..p.k)
        .flat_map(|i| {
            let product = a[i].iter().zip(&z).fold([0; N], |sum, (entry, x)| add(&sum, &Tables::pointwise(entry, x)));
            let scaled: Poly = std::array::from_fn(|x| (u128::from(t[i * N + x]) << 42) as u64 % Q);
            let y = sub(&product, &Tables::pointwise(&c, &tables.transform(&scaled)));
            tables.inverse(&y).map(round_w)
        })
        .collect()
}

/// Lines 4 to 19 of Algorithm 2: the fields that an attempt comes to; or, where masks or the challenge do not fill, the check that ends the
/// call, 20 or 11. The shares of s go on to the next attempt as they are left.
fn attempt(
    p: &Params,
    tables: &Tables,
    a: &[Vec<Poly>],
    t: &[u64],
    mu: &[u8],
    s: &mut [Vec<Poly>],
    noise: Noise,
    masks: Masks,
) -> Checked<Fields> {
    let mut masks = MaskGenerator::new(masks);
    let mut r: Vec<Vec<Poly>> = (0..p.l).map(|_| masks.zero_encoding(p.d)).collect::<Checked<_>>()?;
    add_rep_noise(p, &mut r, 0, p.uw, noise, &mut masks)?;
    let mut w = masked_product(p, tables, a, &r);
    add_rep_noise(p, &mut w, p.l, p.uw, noise, &mut masks)?;
    let w: Vec<u64> = w.iter().flat_map(|sharing| decode(sharing).map(round_w)).collect();
    let hash = chal_hash(p, &w.iter().map(|&x| x as u8).collect::<Vec<u8>>(), mu);
    let c = signed(&chal_poly(p, &hash).ok_or(11u32)?);
    let values = tables.transform(&c);
    masks.refresh_all(s)?;
    masks.refresh_all(&mut r)?;
    let mut z: Vec<Vec<Poly>> = (s.iter().zip(&r))
        .map(|(s, r)| s.iter().zip(r).map(|(s, r)| add(&tables.inverse(&Tables::pointwise(&values, s)), r)).collect())
        .collect();
    masks.refresh_all(&mut z)?;
    let z: Vec<Poly> = z.iter().map(|sharing| decode(sharing)).collect();
    let y = commitment(p, tables, a, &z, &c, t);
    let hint = w.iter().zip(&y).map(|(w, y)| centred((w + 31 - y) % 31, 31)).collect();
    Ok(Fields { hash, hint, response: z.iter().flat_map(|z| z.map(|x| centred(x, Q))).collect() })
}

/// The fields of one attempt after the other, with an expanded key whose lengths and words are right; nothing where the matrix does not fill.
/// The digest is taken as it stands behind the public key.
pub fn attempted<'a>(
    p: &'a Params,
    bytes: &[u8],
    words: &[u64],
    message: &[u8],
    attempts: &'a [(Noise<'a>, Masks<'a>)],
) -> Option<impl Iterator<Item = Checked<Fields>> + use<'a>> {
    assert_eq!(bytes.len(), p.expanded_bytes(), "public key and digest");
    let (vk, digest) = bytes.split_at(p.vk_bytes());
    let tables = Tables::new();
    let a = matrix(p, &tables, &vk[..p.seed_bytes()])?;
    let t = unpack(&vk[p.seed_bytes()..], 7);
    let mu = hash(&[digest, message], p.hash_bytes());
    let mut s = sharings(p, words);
    Some(attempts.iter().map(move |&(noise, masks)| attempt(p, &tables, &a, &t, &mu, &mut s, noise, masks)))
}

/// Signing, as [`attempted`] has the key: status, attempts, signature. Line 20: an attempt over the bounds or too long leads to the next.
pub fn sign(p: &Params, bytes: &[u8], words: &[u64], message: &[u8], attempts: &[(Noise, Masks)]) -> (u32, u32, Option<Vec<u8>>) {
    let Some(all) = attempted(p, bytes, words, message, attempts) else { return (10, 0, None) };
    for (number, fields) in (1..).zip(all) {
        match fields.map(|fields| if check_bounds(p, &fields) { write(p, &fields) } else { None }) {
            Ok(Some(signature)) => return (0, number, Some(signature)),
            Ok(None) => {}
            Err(check) => return (check, number, None),
        }
    }
    (12, attempts.len() as u32, None)
}

/// Verifying, with the refusals of paper 01 in their order.
pub fn verify(set: usize, edition: Edition, vk: &[u8], message: &[u8], sig: &[u8]) -> u32 {
    let Some(p) = Params::new(set, 1, edition) else { return 1 };
    if vk.len() != p.vk_bytes() {
        return 3;
    }
    let t = unpack(&vk[p.seed_bytes()..], 7);
    if t.iter().any(|&x| x >= 125) {
        return 4;
    }
    if message.len() > 4096 {
        return 9;
    }
    if sig.len() != p.sig_bytes {
        return 13;
    }
    let Some(f) = read(&p, sig) else { return 14 };
    if write(&p, &f).as_deref() != Some(sig) {
        return 14;
    }
    if !check_bounds(&p, &f) {
        return 15;
    }
    let tables = Tables::new();
    let Some(a) = matrix(&p, &tables, &vk[..p.seed_bytes()]) else { return 10 };
    let Some(c) = chal_poly(&p, &f.hash) else { return 11 };
    let residue = |z: i64| z.rem_euclid(Q as i64) as u64;
    let z: Vec<Poly> = f.response.chunks_exact(N).map(|z| std::array::from_fn(|i| residue(z[i]))).collect();
    let y = commitment(&p, &tables, &a, &z, &signed(&c), &t);
    let w: Vec<u8> = y.iter().zip(&f.hint).map(|(y, h)| (*y as i64 + h).rem_euclid(31) as u8).collect();
    let mu = hash(&[&hash(&[vk], p.hash_bytes()), message], p.hash_bytes());
    if chal_hash(&p, &w, &mu) == f.hash { 0 } else { 16 }
}
