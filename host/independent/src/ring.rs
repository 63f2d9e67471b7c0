//! Arithmetic modulo q and x^512 + 1, from paper 000, sections 2.2 and 2.7.
//!
//! Two ways: plainly, with 128-bit products and sums over all coefficients (slow, to compare results), and by residues of the
//! two primes with in-place butterflies (to compare speed with code of the same method).

pub const N: usize = 512;
pub const Q: u64 = 549_824_583_172_097;
pub const PRIMES: [u64; 2] = [16_515_073, 33_292_289];
const G: u64 = 358_453_792_785_495;

pub type Poly = [u64; N];

fn mul(a: u64, b: u64) -> u64 {
    (u128::from(a) * u128::from(b) % u128::from(Q)) as u64
}

fn pow(mut base: u64, mut exponent: usize, modulus: u64) -> u64 {
    let mut result = 1u64;
    while exponent > 0 {
        if exponent & 1 == 1 {
            result = (u128::from(result) * u128::from(base) % u128::from(modulus)) as u64;
        }
        base = (u128::from(base) * u128::from(base) % u128::from(modulus)) as u64;
        exponent >>= 1;
    }
    result
}

fn reversed(index: usize) -> usize {
    (index as u16).reverse_bits() as usize >> 7
}

/// The sum, word by word modulo q.
pub fn add(a: &Poly, b: &Poly) -> Poly {
    std::array::from_fn(|i| (a[i] + b[i]) % Q)
}

/// The difference, word by word modulo q.
pub fn sub(a: &Poly, b: &Poly) -> Poly {
    std::array::from_fn(|i| (a[i] + Q - b[i]) % Q)
}

/// The product of the ring, coefficient by coefficient.
pub fn schoolbook(f: &Poly, g: &Poly) -> Poly {
    let mut product = [0u64; N];
    for i in 0..N {
        for j in 0..N {
            let term = mul(f[i], g[j]);
            let at = (i + j) % N;
            product[at] = if i + j < N { (product[at] + term) % Q } else { (product[at] + Q - term) % Q };
        }
    }
    product
}

/// The transform by its definition: the values at z_i = g^(2 rev(i) + 1).
pub fn values(f: &Poly) -> Poly {
    std::array::from_fn(|i| {
        let z = pow(G, 2 * reversed(i) + 1, Q);
        f.iter().rev().fold(0, |sum, &c| (mul(sum, z) + c) % Q)
    })
}

/// Tables of powers for the transform by residues.
pub struct Tables {
    powers: [[u64; N]; 2],
    inverse: [u64; 2],
}

impl Default for Tables {
    fn default() -> Self {
        Self::new()
    }
}

impl Tables {
    pub fn new() -> Self {
        let powers = PRIMES.map(|p| std::array::from_fn(|k| pow(G % p, reversed(k), p)));
        Tables { powers, inverse: PRIMES.map(|p| pow(N as u64, p as usize - 2, p)) }
    }

    fn forward<const P: u64>(table: &[u64; N], f: &mut Poly) {
        let mut node = 1;
        let mut half = N / 2;
        while half > 0 {
            for block in f.chunks_exact_mut(2 * half) {
                let w = table[node];
                node += 1;
                let (low, high) = block.split_at_mut(half);
                for (x, y) in low.iter_mut().zip(high) {
                    let t = w * *y % P;
                    *y = if *x < t { *x + P - t } else { *x - t };
                    *x = if *x + t < P { *x + t } else { *x + t - P };
                }
            }
            half /= 2;
        }
    }

    fn backward<const P: u64>(table: &[u64; N], inverse: u64, f: &mut Poly) {
        let mut half = 1;
        while half < N {
            let first = N / 2 / half;
            let mut node = 2 * first;
            for block in f.chunks_exact_mut(2 * half) {
                node -= 1;
                let w = table[node];
                let (low, high) = block.split_at_mut(half);
                for (x, y) in low.iter_mut().zip(high) {
                    let difference = if *y < *x { *y + P - *x } else { *y - *x };
                    *x = if *x + *y < P { *x + *y } else { *x + *y - P };
                    *y = w * difference % P;
                }
            }
            half *= 2;
        }
        for x in f.iter_mut() {
            *x = *x * inverse % P;
        }
    }

    fn join(low: &Poly, high: &Poly) -> Poly {
        // 520194 is the inverse of the first prime modulo the second
        std::array::from_fn(|i| low[i] + PRIMES[0] * ((high[i] + PRIMES[1] - low[i]) * 520_194 % PRIMES[1]))
    }

    pub fn transform(&self, f: &Poly) -> Poly {
        let (mut low, mut high) = (f.map(|x| x % PRIMES[0]), f.map(|x| x % PRIMES[1]));
        Self::forward::<16_515_073>(&self.powers[0], &mut low);
        Self::forward::<33_292_289>(&self.powers[1], &mut high);
        Self::join(&low, &high)
    }

    pub fn inverse(&self, x: &Poly) -> Poly {
        let (mut low, mut high) = (x.map(|c| c % PRIMES[0]), x.map(|c| c % PRIMES[1]));
        Self::backward::<16_515_073>(&self.powers[0], self.inverse[0], &mut low);
        Self::backward::<33_292_289>(&self.powers[1], self.inverse[1], &mut high);
        Self::join(&low, &high)
    }

    /// The pointwise product, by residues too.
    pub fn pointwise(a: &Poly, b: &Poly) -> Poly {
        let rests = |p: u64| -> Poly { std::array::from_fn(|i| (a[i] % p) * (b[i] % p) % p) };
        Self::join(&rests(PRIMES[0]), &rests(PRIMES[1]))
    }
}

/// A draw of seven bytes, little-endian: its low 49 bits, or nothing where these are q or more.
pub fn draw(bytes: &[u8]) -> Option<u64> {
    let mut word = [0u8; 8];
    word[..7].copy_from_slice(bytes);
    let value = u64::from_le_bytes(word) & ((1 << 49) - 1);
    (value < Q).then_some(value)
}

/// A uniform polynomial from the stream of SHAKE256 (Algorithm 5), or nothing after 777 draws.
pub fn sample_q(bytes: &[u8]) -> Option<Poly> {
    let mut poly = [0u64; N];
    let mut filled = 0;
    for value in bytes.chunks_exact(7).take(777).filter_map(draw) {
        poly[filled] = value;
        filled += 1;
        if filled == N {
            return Some(poly);
        }
    }
    None
}
