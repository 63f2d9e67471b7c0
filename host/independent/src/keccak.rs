//! SHAKE256 from FIPS 202. Lanes are numbered x + 5 y.

use std::cell::Cell;

const RATE: usize = 136;

/// The 24 round constants, by the register of FIPS 202, algorithm 5.
const fn round_constants() -> [u64; 24] {
    let mut constants = [0u64; 24];
    let mut register: u8 = 1;
    let mut round = 0;
    while round < 24 {
        let mut j = 0;
        while j < 7 {
            if register & 1 == 1 {
                constants[round] |= 1 << ((1u32 << j) - 1);
            }
            let top = register >> 7;
            register = register << 1 ^ if top == 1 { 0x71 } else { 0 };
            j += 1;
        }
        round += 1;
    }
    constants
}

const RC: [u64; 24] = round_constants();

/// For each step of rho and pi: where the lane goes, and by how much it is rotated.
const MOVES: [(usize, u32); 24] = {
    let mut moves = [(0usize, 0u32); 24];
    let (mut x, mut y) = (1usize, 0usize);
    let mut t = 0;
    while t < 24 {
        let next = (2 * x + 3 * y) % 5;
        x = y;
        y = next;
        moves[t] = (x + 5 * y, ((t as u32 + 1) * (t as u32 + 2) / 2) % 64);
        t += 1;
    }
    moves
};

#[inline(always)]
fn round(a: &mut [u64; 25], constant: u64) {
    let mut c = [0u64; 5];
    for x in 0..5 {
        c[x] = a[x] ^ a[x + 5] ^ a[x + 10] ^ a[x + 15] ^ a[x + 20];
    }
    for x in 0..5 {
        let d = c[(x + 4) % 5] ^ c[(x + 1) % 5].rotate_left(1);
        for y in 0..5 {
            a[x + 5 * y] ^= d;
        }
    }
    let mut hand = a[1];
    for (to, by) in MOVES {
        let next = a[to];
        a[to] = hand.rotate_left(by);
        hand = next;
    }
    for y in 0..5 {
        let row = [a[5 * y], a[5 * y + 1], a[5 * y + 2], a[5 * y + 3], a[5 * y + 4]];
        for x in 0..5 {
            a[5 * y + x] = row[x] ^ (!row[(x + 1) % 5] & row[(x + 2) % 5]);
        }
    }
    a[0] ^= constant;
}

thread_local! {
    static PERMUTATIONS: Cell<u64> = const { Cell::new(0) };
}

/// How many permutations this thread has made so far.
pub fn permutations() -> u64 {
    PERMUTATIONS.get()
}

/// `Keccak-f[1600]`, two rounds to a turn: the usual shape for compilers.
pub fn permute(a: &mut [u64; 25]) {
    PERMUTATIONS.set(PERMUTATIONS.get() + 1);
    for pair in RC.chunks_exact(2) {
        round(a, pair[0]);
        round(a, pair[1]);
    }
}

/// A SHAKE256 computation: absorb, then squeeze.
pub struct Shake256 {
    state: [u64; 25],
    at: usize,
    squeezing: bool,
}

impl Default for Shake256 {
    fn default() -> Self {
        Self::new()
    }
}

impl Shake256 {
    pub fn new() -> Self {
        Shake256 { state: [0; 25], at: 0, squeezing: false }
    }

    fn xor(&mut self, place: usize, byte: u8) {
        self.state[place / 8] ^= u64::from(byte) << (8 * (place % 8));
    }

    pub fn absorb(&mut self, message: &[u8]) {
        for &byte in message {
            self.xor(self.at, byte);
            self.at += 1;
            if self.at == RATE {
                permute(&mut self.state);
                self.at = 0;
            }
        }
    }

    pub fn squeeze(&mut self, out: &mut [u8]) {
        if !self.squeezing {
            self.xor(self.at, 0x1f);
            self.xor(RATE - 1, 0x80);
            permute(&mut self.state);
            self.at = 0;
            self.squeezing = true;
        }
        let mut done = 0;
        while done < out.len() {
            if self.at == RATE {
                permute(&mut self.state);
                self.at = 0;
            }
            let n = (RATE - self.at).min(out.len() - done);
            if self.at == 0 && n == RATE {
                for (bytes, lane) in out[done..done + RATE].chunks_exact_mut(8).zip(&self.state) {
                    bytes.copy_from_slice(&lane.to_le_bytes());
                }
            } else {
                for i in 0..n {
                    let place = self.at + i;
                    out[done + i] = (self.state[place / 8] >> (8 * (place % 8))) as u8;
                }
            }
            self.at += n;
            done += n;
        }
    }
}

/// The first bytes of SHAKE256 of a message.
pub fn shake256(message: &[u8], out: &mut [u8]) {
    let mut xof = Shake256::new();
    xof.absorb(message);
    xof.squeeze(out);
}
