//! The mask generator of paper 01, with the even words of paper 02, request #105, and what is made of them.

use crate::keccak::Shake256;
use crate::ring::{N, Poly, add, draw, sub};

/// The most draws that a polynomial may take, those of q and above included.
const DRAWS: usize = 777;

/// What comes of a step, or the number of the check whose answer was no.
pub type Checked<T = ()> = Result<T, u32>;

/// The masks of a call, or of one attempt: a mask seed, or lent bytes in place of its stream. No seed is known that runs dry; lent bytes can.
#[derive(Clone, Copy)]
pub enum Masks<'a> {
    Seed(&'a [u8]),
    Lent(&'a [u8]),
}

enum Stream<'a> {
    Squeezed(Shake256),
    Lent(&'a [u8]),
}

impl Stream<'_> {
    /// The next draws of the stream, seven bytes each, and how many there were: of lent bytes there may be fewer than there is room for.
    fn read(&mut self, out: &mut [u8]) -> usize {
        match self {
            Stream::Squeezed(xof) => {
                xof.squeeze(out);
                out.len() / 7
            }
            Stream::Lent(bytes) => {
                let draws = (out.len() / 7).min(bytes.len() / 7);
                let (next, rest) = bytes.split_at(7 * draws);
                out[..7 * draws].copy_from_slice(next);
                *bytes = rest;
                draws
            }
        }
    }
}

/// The generator: a place in a stream that each draw moves on.
pub struct MaskGenerator<'a> {
    stream: Stream<'a>,
    draws: usize,
}

impl<'a> MaskGenerator<'a> {
    pub fn new(masks: Masks<'a>) -> MaskGenerator<'a> {
        let stream = match masks {
            Masks::Seed(seed) => {
                let mut xof = Shake256::new();
                xof.absorb(seed);
                Stream::Squeezed(xof)
            }
            Masks::Lent(bytes) => Stream::Lent(bytes),
        };
        MaskGenerator { stream, draws: 0 }
    }

    /// How many draws were taken so far.
    pub fn draws(&self) -> usize {
        self.draws
    }

    /// The next 512 draws below q, of at most 777 (check 20). As many are taken at once as words are lacking, so none behind the last used.
    pub fn poly(&mut self) -> Checked<Poly> {
        let (mut poly, mut bytes) = ([0; N], [0; 7 * N]);
        let (mut filled, mut left) = (0, DRAWS);
        while filled < N {
            let taken = self.stream.read(&mut bytes[..7 * left.min(N - filled)]);
            if taken == 0 {
                return Err(20);
            }
            left -= taken;
            self.draws += taken;
            for word in bytes[..7 * taken].chunks_exact(7).filter_map(draw) {
                poly[filled] = word;
                filled += 1;
            }
        }
        Ok(poly)
    }

    /// Algorithm 12.
    pub fn zero_encoding(&mut self, d: usize) -> Checked<Vec<Poly>> {
        if d == 1 {
            return Ok(vec![[0; N]]);
        }
        let mut left = self.zero_encoding(d / 2)?;
        let mut right = self.zero_encoding(d / 2)?;
        for (x, y) in left.iter_mut().zip(right.iter_mut()) {
            let r = self.poly()?;
            *x = add(x, &r);
            *y = sub(y, &r);
        }
        left.append(&mut right);
        Ok(left)
    }

    /// Algorithm 11.
    pub fn refresh(&mut self, shares: &mut [Poly]) -> Checked {
        let zero = self.zero_encoding(shares.len())?;
        for (x, z) in shares.iter_mut().zip(zero) {
            *x = add(x, &z);
        }
        Ok(())
    }

    /// Algorithm 11 on each sharing of a vector.
    pub fn refresh_all(&mut self, vector: &mut [Vec<Poly>]) -> Checked {
        vector.iter_mut().try_for_each(|sharing| self.refresh(sharing))
    }
}
