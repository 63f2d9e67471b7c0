//! NIST's generator of response files: AES-256-CTR-DRBG without derivation function.

fn times_two(x: u8) -> u8 {
    x << 1 ^ if x >> 7 == 1 { 0x1b } else { 0 }
}

/// The S-box of FIPS 197, by its rule: the inverse in GF(2^8), then the affine map.
fn s_box() -> [u8; 256] {
    let mut power = [0u8; 255];
    let mut log = [0usize; 256];
    let mut x = 1u8;
    for (i, p) in power.iter_mut().enumerate() {
        *p = x;
        log[usize::from(x)] = i;
        x ^= times_two(x);
    }
    std::array::from_fn(|i| {
        let inverse = if i == 0 { 0 } else { power[(255 - log[i]) % 255] };
        (0..5).fold(0x63, |sum, n| sum ^ inverse.rotate_left(n))
    })
}

/// AES-256, encryption of one block.
struct Aes256 {
    box_: [u8; 256],
    keys: [[u8; 16]; 15],
}

impl Aes256 {
    fn new(key: &[u8; 32]) -> Aes256 {
        let box_ = s_box();
        let mut words: Vec<[u8; 4]> = key.chunks_exact(4).map(|w| w.try_into().unwrap()).collect();
        let mut constant = 1u8;
        for i in 8..60 {
            let mut w = words[i - 1];
            if i % 8 == 0 {
                w.rotate_left(1);
                w = w.map(|b| box_[usize::from(b)]);
                w[0] ^= constant;
                constant = times_two(constant);
            } else if i % 8 == 4 {
                w = w.map(|b| box_[usize::from(b)]);
            }
            words.push(std::array::from_fn(|j| words[i - 8][j] ^ w[j]));
        }
        Aes256 { box_, keys: std::array::from_fn(|r| words[4 * r..4 * r + 4].concat().try_into().unwrap()) }
    }

    fn encrypt(&self, block: [u8; 16]) -> [u8; 16] {
        let add = |s: [u8; 16], k: &[u8; 16]| -> [u8; 16] { std::array::from_fn(|i| s[i] ^ k[i]) };
        let mut s = add(block, &self.keys[0]);
        for round in 1..15 {
            s = s.map(|b| self.box_[usize::from(b)]);
            s = std::array::from_fn(|i| s[(i + 4 * (i % 4)) % 16]);
            if round < 14 {
                let column = |c: usize| -> [u8; 4] { s[4 * c..4 * c + 4].try_into().unwrap() };
                s = std::array::from_fn(|i| {
                    let c = column(i / 4);
                    let at = |n: usize| c[(i + n) % 4];
                    times_two(at(0)) ^ times_two(at(1)) ^ at(1) ^ at(2) ^ at(3)
                });
            }
            s = add(s, &self.keys[round]);
        }
        s
    }
}

pub struct Drbg {
    key: [u8; 32],
    v: u128,
}

impl Drbg {
    /// `randombytes_init(entropy, NULL)`.
    pub fn new(entropy: &[u8; 48]) -> Drbg {
        let mut drbg = Drbg { key: [0; 32], v: 0 };
        drbg.update(entropy);
        drbg
    }

    fn blocks(&mut self, n: usize) -> Vec<u8> {
        let aes = Aes256::new(&self.key);
        let mut out = Vec::with_capacity(16 * n);
        for _ in 0..n {
            self.v = self.v.wrapping_add(1);
            out.extend(aes.encrypt(self.v.to_be_bytes()));
        }
        out
    }

    fn update(&mut self, data: &[u8; 48]) {
        let mut seed = self.blocks(3);
        seed.iter_mut().zip(data).for_each(|(s, d)| *s ^= d);
        self.key = seed[..32].try_into().unwrap();
        self.v = u128::from_be_bytes(seed[32..].try_into().unwrap());
    }

    /// One draw of `randombytes`.
    pub fn bytes(&mut self, n: usize) -> Vec<u8> {
        let mut out = self.blocks(n.div_ceil(16));
        out.truncate(n);
        self.update(&[0; 48]);
        out
    }
}

/// The entropy and the message of each test of a response file.
pub fn tests(count: usize) -> Vec<([u8; 48], Vec<u8>)> {
    let mut drbg = Drbg::new(&std::array::from_fn(|i| i as u8));
    (0..count).map(|i| (drbg.bytes(48).try_into().unwrap(), drbg.bytes(33 * (i + 1)))).collect()
}
