//! Fields of a set at the bounds of Algorithm 4, and just above them.

use independent::raccoon::{Fields, Params};
use independent::ring::N;

/// Fields with nothing but zeros in hint and response.
pub fn zero_fields(p: &Params) -> Fields {
    Fields { hash: vec![3; p.hash_bytes()], hint: vec![0; p.k * N], response: vec![0; p.l * N] }
}

/// A number with the sign of its place: plus at even ones.
fn alternating(place: usize, size: u64) -> i64 {
    if place % 2 == 0 { size as i64 } else { -(size as i64) }
}

/// Fields whose weighted sum of squares is `norm`: hints of 2, and responses for the rest, the largest first, all bits that do not count set.
pub fn fields_of_norm(p: &Params, norm: u64) -> Fields {
    let mut f = hint_of_squares(p, norm >> 26 << 2);
    let mut rest = norm & ((1 << 26) - 1);
    for (i, z) in f.response.iter_mut().enumerate() {
        let root = rest.isqrt().min((p.binf >> 32) - 1);
        rest -= root * root;
        *z = if root == 0 { 0 } else { alternating(i, root << 32 | 0xffff_ffff) };
    }
    assert_eq!(rest, 0);
    f
}

/// Fields of a hint whose squares add up to `sum`, each as much as 2^24 in the weighted sum: twos, then ones.
pub fn hint_of_squares(p: &Params, sum: u64) -> Fields {
    let mut f = zero_fields(p);
    let (twos, ones) = ((sum / 4) as usize, (sum % 4) as usize);
    for (i, h) in f.hint[..twos + ones].iter_mut().enumerate() {
        *h = alternating(i, if i < twos { 2 } else { 1 });
    }
    f
}

/// How many zeros are at the end: by as many places the other numbers can be rotated to the right.
pub fn zeros_behind(numbers: &[i64]) -> usize {
    numbers.iter().rev().take_while(|&&number| number == 0).count()
}
