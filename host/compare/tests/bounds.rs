//! Where the check of the bounds stops, and how many coefficients it read: fields of each set at the limits and one above, with the
//! coefficient that decides at the ends and at random places, also as whole signatures; any numbers under any limits; lists of any
//! length. The proved code against the independent decision, and both against full sums.

use compare::bounds::{fields_of_norm, hint_of_squares, zero_fields, zeros_behind};
use compare::independent::raccoon::{Decision, Edition, Fields, Params, check_bounds, decide, decide_bounds, write};
use compare::independent::ring::N;
use compare::pool::SETS;
use compare::random::Random;
use compare::unit;

/// The limits of hints and of responses, and the bound of the sum.
type Limits = [u64; 3];

const ANY: u64 = u64::MAX;
const MIN: i64 = i64::MIN;
const MAX: i64 = i64::MAX;

const fn yes(coefficients: usize) -> Decision {
    Decision { passed: true, coefficients }
}

const fn no(coefficients: usize) -> Decision {
    Decision { passed: false, coefficients }
}

/// The unit's decision, which must be the independent one. What stands around the two lists would be a no.
fn decision(limits: Limits, hint: &[i64], response: &[i64]) -> Decision {
    let guarded = [hint, response].map(|numbers| [&[MIN], numbers, &[MIN]].concat());
    let [h, z] = [0, 1].map(|i| &guarded[i][1..guarded[i].len() - 1]);
    let [hint_limit, binf, b22] = limits;
    let found = unit::check_bounds(h, z, hint_limit, binf, b22);
    let expected = decide(hint_limit, binf, b22, hint, response);
    assert_eq!(found, expected, "limits {limits:?}, {} hints, {} responses", hint.len(), response.len());
    found
}

fn sets() -> [Params; 3] {
    SETS.map(|set| Params::new(set, 1, Edition::Printed).unwrap())
}

/// How many coefficients the fields of a set have.
fn all(p: &Params) -> usize {
    (p.k + p.l) * N
}

/// The unit's decision on fields of a set. The full sums and the verifier must answer alike.
fn decision_on(p: &Params, f: &Fields) -> Decision {
    let found = decision([p.hint_limit(), p.binf, p.b22], &f.hint, &f.response);
    assert_eq!(found, decide_bounds(p, f));
    assert_eq!(found.passed, check_bounds(p, f), "the full sums of set {}", p.kappa);
    let signature = write(p, f).expect("a signature that fits");
    let status = unit::verify(p.edition, p.kappa as u32, &vec![0; p.vk_bytes()], &[], &signature);
    assert_eq!(status, if found.passed { 16 } else { 15 }, "the verifier of set {}", p.kappa);
    found
}

/// Coefficient `n` of fields, those of the response behind those of the hint.
fn coefficient(f: &mut Fields, n: usize) -> &mut i64 {
    let hints = f.hint.len();
    if n < hints { &mut f.hint[n] } else { &mut f.response[n - hints] }
}

fn limit(p: &Params, n: usize) -> i64 {
    (if n < p.k * N { p.hint_limit() } else { p.binf }) as i64
}

/// Fields with some coefficients put to other values.
fn with(f: &Fields, changes: &[(usize, i64)]) -> Fields {
    let mut f = f.clone();
    changes.iter().for_each(|&(n, value)| *coefficient(&mut f, n) = value);
    f
}

/// Both ends of hint and response, and random places in each.
fn places(p: &Params, random: &mut Random) -> Vec<usize> {
    let hints = p.k * N;
    let within = (0..4).flat_map(|_| [random.below(hints), hints + random.below(p.l * N)]);
    [0, 1, hints - 1, hints, hints + 1, all(p) - 1].into_iter().chain(within).collect()
}

/// A number of at most so many bits, with any sign.
fn number(random: &mut Random, bits: u32) -> i64 {
    let size = (random.word() >> (64 - bits)) as i64;
    if random.below(2) == 0 { size } else { -size }
}

/// Fields far below the bounds: some hints of 1 or -1, and responses of 40 bits.
fn low_fields(p: &Params, random: &mut Random) -> Fields {
    let mut f = zero_fields(p);
    (0..200).for_each(|_| f.hint[random.below(p.k * N)] = 1 - 2 * random.below(2) as i64);
    f.response.fill_with(|| number(random, 40));
    f
}

#[test]
fn a_coefficient_above_its_limit() {
    let mut random = Random(120);
    for p in sets() {
        for n in places(&p, &mut random) {
            let low = low_fields(&p, &mut random);
            for sign in [1, -1] {
                let above = |n: usize| (n, sign * (limit(&p, n) + 1));
                let what = format!("coefficient {n} of set {}, sign {sign}", p.kappa);
                assert_eq!(decision_on(&p, &with(&low, &[(n, sign * limit(&p, n))])), yes(all(&p)), "{what}, at its limit");
                assert_eq!(decision_on(&p, &with(&low, &[above(n)])), no(n + 1), "{what}, above its limit");
                if n + 1 < all(&p) {
                    let later = n + 1 + random.below(all(&p) - n - 1);
                    assert_eq!(decision_on(&p, &with(&low, &[above(n), above(later)])), no(n + 1), "{what}, {later} too");
                }
                if n > 0 {
                    let earlier = random.below(n);
                    assert_eq!(
                        decision_on(&p, &with(&low, &[above(n), above(earlier)])),
                        no(earlier + 1),
                        "{what}, {earlier} too"
                    );
                }
            }
            for value in [MAX, MIN] {
                let f = with(&low, &[(n, value)]);
                assert_eq!(decision([p.hint_limit(), p.binf, p.b22], &f.hint, &f.response), no(n + 1), "{value} at {n}");
            }
        }
    }
}

/// Fields times a sign, with hint or response rotated by so many places, or as far as zeros at its end allow; and which coefficient
/// is then the last in it that adds to the sum.
fn rotated(f: &Fields, sign: i64, in_hint: bool, by: usize) -> (Fields, usize) {
    let mut f = f.clone();
    f.hint.iter_mut().chain(&mut f.response).for_each(|number| *number *= sign);
    let first = if in_hint { 0 } else { f.hint.len() };
    let numbers = if in_hint { &mut f.hint } else { &mut f.response };
    let by = by.min(zeros_behind(numbers));
    numbers.rotate_right(by);
    let last = first + numbers.len() - 1 - zeros_behind(numbers);
    (f, last)
}

/// Fields over the sum, by the last coefficient that adds to it: others above their limits matter where they come earlier.
fn check_over_the_sum(p: &Params, over: &Fields, last: usize, random: &mut Random) {
    let above = |n: usize| (n, limit(p, n) + 1);
    assert_eq!(decision_on(p, over), no(last + 1), "the sum of set {}, above its bound from {last} on", p.kappa);
    if last + 1 < all(p) {
        let later = last + 1 + random.below(all(p) - last - 1);
        assert_eq!(decision_on(p, &with(over, &[above(later)])), no(last + 1), "{later} behind {last}");
    }
    let earlier = random.below(last);
    assert_eq!(decision_on(p, &with(over, &[above(earlier)])), no(earlier + 1), "{earlier} before {last}");
    // a response at its limit adds more than the hints leave
    if last > p.k * N {
        let earlier = p.k * N + random.below(last - p.k * N);
        assert_eq!(
            decision_on(p, &with(over, &[(earlier, limit(p, earlier))])),
            no(earlier + 1),
            "{earlier} lifts before {last}"
        );
    }
}

#[test]
fn the_sum_above_its_bound() {
    let mut random = Random(121);
    for p in sets() {
        let hint = |more: u64| hint_of_squares(&p, (p.b22 >> 24) + more);
        let response = |more: u64| fields_of_norm(&p, p.b22 + more);
        for (in_hint, within, over) in [(true, hint(0), hint(1)), (false, response(0), response(1))] {
            for by in [0, 1, usize::MAX, random.below(p.l * N), random.below(p.l * N)] {
                for sign in [1, -1] {
                    assert_eq!(
                        decision_on(&p, &rotated(&within, sign, in_hint, by).0),
                        yes(all(&p)),
                        "at the sum of {}",
                        p.kappa
                    );
                    let (over, last) = rotated(&over, sign, in_hint, by);
                    check_over_the_sum(&p, &over, last, &mut random);
                }
            }
        }
    }
}

/// Hints as near to the bound as they can be, and one response: the largest that passes, and the next in the bits that count.
#[test]
fn one_response_lifts_the_sum() {
    let mut random = Random(122);
    for p in sets() {
        let hints = p.k * N;
        let near = hint_of_squares(&p, p.b22 >> 24);
        let root = (p.b22 & 0xff_ffff).isqrt() as i64;
        for n in [hints, hints + 1, all(&p) - 1, hints + random.below(p.l * N), hints + random.below(p.l * N)] {
            for sign in [1, -1] {
                let lifted = |n: usize, root: i64, low: i64| (n, sign * (root << 32 | low));
                let largest = with(&near, &[lifted(n, root, 0xffff_ffff)]);
                assert_eq!(decision_on(&p, &largest), yes(all(&p)), "response {n} of set {}", p.kappa);
                let over = with(&near, &[lifted(n, root + 1, 0)]);
                assert_eq!(decision_on(&p, &over), no(n + 1), "response {n} of set {}", p.kappa);
                if n + 1 < all(&p) {
                    let later = n + 1 + random.below(all(&p) - n - 1);
                    assert_eq!(decision_on(&p, &with(&over, &[lifted(later, root + 1, 0)])), no(n + 1), "{later} behind {n}");
                }
            }
        }
    }
}

/// Fields all of whose coefficients add to the sum: it is above a bound from any of them on.
#[test]
fn the_sum_above_any_bound() {
    let mut random = Random(123);
    for p in sets() {
        let mut f = zero_fields(&p);
        f.hint.fill_with(|| (1 + random.below(5) as i64) * (1 - 2 * random.below(2) as i64));
        f.response.fill_with(|| (number(&mut random, 48).abs() | 1 << 32) * (1 - 2 * random.below(2) as i64));
        let squares = f.hint.iter().map(|h| (h * h) << 24).chain(f.response.iter().map(|z| (z.abs() >> 32).pow(2)));
        let sums: Vec<u64> = squares
            .scan(0, |sum, square| {
                *sum += square as u64;
                Some(*sum)
            })
            .collect();
        for n in places(&p, &mut random) {
            let found = |b22: u64| decision([5, 1 << 48, b22], &f.hint, &f.response);
            assert_eq!(found(sums[n] - 1), no(n + 1), "sum {n} of set {}", p.kappa);
            let next = if n + 1 < all(&p) { no(n + 2) } else { yes(all(&p)) };
            assert_eq!(found(sums[n]), next, "sum {n} of set {}", p.kappa);
        }
    }
}

/// Limits, hint and response, where words of 64 or 128 bits cannot hold a size, a square or the sum; and the decision.
const KNOWN: [(Limits, &[i64], &[i64], Decision); 24] = [
    // a size of 2^63
    ([1 << 63, ANY, ANY], &[MIN], &[], no(1)),
    ([ANY, 1 << 63, ANY], &[], &[MIN], yes(1)),
    ([ANY, (1 << 63) - 1, ANY], &[], &[MIN], no(1)),
    ([ANY, (1 << 63) - 1, ANY], &[], &[MAX, -MAX], yes(2)),
    ([ANY, ANY, 1 << 62], &[0], &[MIN, 0], yes(3)),
    ([ANY, ANY, (1 << 62) - 1], &[0], &[MIN, 0], no(2)),
    // squares of 2^62: the sum of four is 2^64
    ([ANY, ANY, ANY], &[], &[MIN, MIN, MIN], yes(3)),
    ([ANY, ANY, ANY], &[], &[MIN, MIN, MIN, MIN], no(4)),
    ([ANY, ANY, 3 << 62], &[], &[MIN, MIN, 0, MIN], yes(4)),
    ([ANY, ANY, (3 << 62) - 1], &[], &[MIN, MIN, 0, MIN], no(4)),
    ([ANY, ANY, ANY], &[], &[MIN, MIN, MIN, MAX, 1 << 32], yes(5)),
    // weighted squares of 2^64, just below, and sums of them
    ([ANY, ANY, ANY], &[1 << 20], &[], no(1)),
    ([ANY, ANY, ANY], &[(1 << 20) - 1], &[], yes(1)),
    ([ANY, ANY, ANY], &[1 - (1 << 20), 1448], &[], yes(2)),
    ([ANY, ANY, ANY], &[1 - (1 << 20), 1449], &[], no(2)),
    ([ANY, ANY, ANY], &[1 - (1 << 20), 0], &[MAX], no(3)),
    ([ANY, ANY, 1 << 24], &[0, 1], &[1 << 31], yes(3)),
    ([ANY, ANY, (1 << 24) - 1], &[0, 1], &[1 << 31], no(2)),
    // squares of 2^64, weighted ones of 2^128, and more
    ([ANY, ANY, ANY], &[1 << 32, 0], &[0], no(1)),
    ([ANY, ANY, ANY], &[0, -(1 << 52)], &[0], no(2)),
    ([ANY, ANY, 0], &[1 << 52], &[], no(1)),
    ([ANY, ANY, ANY], &[0, 0, MAX], &[], no(3)),
    // no size at all
    ([0, 0, 0], &[0, 0], &[0], yes(3)),
    ([ANY, ANY, 0], &[0], &[(1 << 32) - 1, 1 - (1 << 32), 1 << 32], no(4)),
];

#[test]
fn sums_that_words_cannot_hold() {
    for (limits, hint, response, expected) in KNOWN {
        assert_eq!(decision(limits, hint, response), expected, "limits {limits:?}, hint {hint:?}, response {response:?}");
    }
}

/// Sizes around powers of two, with both signs, and 0.
fn extremes() -> Vec<i64> {
    let sizes =
        [1, 2, 1 << 20, 1 << 32, 1 << 33, 1 << 40, 1 << 52, 1 << 62].into_iter().flat_map(|size: i64| [size - 1, size, size + 1]);
    let sizes: Vec<i64> = sizes.chain([MAX - 1, MAX]).collect();
    sizes.iter().copied().chain(sizes.iter().map(|size| -size)).chain([MIN]).collect()
}

#[test]
fn extreme_numbers_under_extreme_limits() {
    let edges = [0, 1, (1 << 20) - 1, 1 << 20, (1 << 20) + 1, 1 << 32, (1 << 63) - 1, 1 << 63, u64::MAX];
    let pairs = edges.iter().flat_map(|&hint_limit| edges.map(|binf| [hint_limit, binf]));
    let (extremes, mut random) = (extremes(), Random(124));
    for limits in pairs.flat_map(|[hint_limit, binf]| edges.map(|b22| [hint_limit, binf, b22])) {
        for &x in &extremes {
            let y = extremes[random.below(extremes.len())];
            for (hint, response) in [(&[x][..], &[y][..]), (&[y], &[x]), (&[x, y], &[]), (&[], &[x, y]), (&[0, x], &[y, 0])] {
                let found = decision(limits, hint, response);
                assert_eq!(found, least_prefix(limits, hint, response), "limits {limits:?}, {hint:?}, {response:?}");
            }
        }
    }
}

#[test]
fn lists_of_any_length() {
    let lengths = [0, 1, 2, 511, 512, 513, 2560, 10_000];
    for hints in lengths {
        for responses in lengths {
            let (hint, response) = (vec![1; hints], vec![1 << 32; responses]);
            let sum = ((hints as u64) << 24) + responses as u64;
            let all = hints + responses;
            assert_eq!(decision([1, 1 << 32, sum], &hint, &response), yes(all));
            if all > 0 {
                assert_eq!(decision([1, 1 << 32, sum - 1], &hint, &response), no(all));
            }
            let first = if hints > 0 { no(1) } else { yes(all) };
            assert_eq!(decision([0, 1 << 32, sum], &hint, &response), first, "no hint passes");
            let first = if responses > 0 { no(hints + 1) } else { yes(all) };
            assert_eq!(decision([1, (1 << 32) - 1, sum], &hint, &response), first, "no response passes");
        }
    }
}

/// The least number of coefficients, those of the hint first, that by full sums are over a limit or over the sum; all where none are.
fn least_prefix(limits: Limits, hint: &[i64], response: &[i64]) -> Decision {
    let over = |n: usize| over_by_full_sums(limits, &hint[..n.min(hint.len())], &response[..n.saturating_sub(hint.len())]);
    let all = hint.len() + response.len();
    (1..=all).find(|&n| over(n)).map_or(yes(all), no)
}

/// A sum that a u128 cannot hold is above any bound.
fn over_by_full_sums([hint_limit, binf, b22]: Limits, hint: &[i64], response: &[i64]) -> bool {
    let above = |numbers: &[i64], limit: u64| numbers.iter().any(|number| number.unsigned_abs() > limit);
    let squares = |numbers: &[i64], shift: u32| {
        numbers.iter().try_fold(0u128, |sum, number| sum.checked_add(u128::from(number.unsigned_abs() >> shift).pow(2)))
    };
    let weighted = |hint: u128, response: u128| hint.checked_mul(1 << 24)?.checked_add(response);
    let sum = squares(hint, 0).zip(squares(response, 32)).and_then(|(h, z)| weighted(h, z));
    above(hint, hint_limit) || above(response, binf) || sum.is_none_or(|sum| sum > u128::from(b22))
}

/// A limit at a value, beside it, or one that nothing meets.
fn near(random: &mut Random, value: u64) -> u64 {
    [value, value.saturating_sub(1), value.saturating_add(1), ANY, ANY][random.below(5)]
}

/// A few numbers, up to a size that is small, or large, or at an edge of what sums can hold.
fn few(random: &mut Random, bits: [u32; 6]) -> Vec<i64> {
    let bits = bits[random.below(6)];
    (0..random.below(7)).map(|_| if random.below(200) == 0 { MIN } else { number(random, bits) }).collect()
}

/// The weighted sum of squares, or the most that a bound can be.
fn sum(hint: &[i64], response: &[i64]) -> u64 {
    let hints = hint.iter().map(|h| u128::from(h.unsigned_abs()).pow(2).saturating_mul(1 << 24));
    let squares = hints.chain(response.iter().map(|z| u128::from(z.unsigned_abs() >> 32).pow(2)));
    squares.fold(0, u128::saturating_add).try_into().unwrap_or(ANY)
}

/// Why a decision was made: 0 for a yes; 1 and 2 in the hint, by the limit and by the sum; 3 and 4 in the response.
fn reason(decision: Decision, [hint_limit, binf, _]: Limits, hint: &[i64], response: &[i64]) -> usize {
    if decision.passed {
        return 0;
    }
    match decision.coefficients - 1 {
        n if n < hint.len() => 1 + usize::from(hint[n].unsigned_abs() <= hint_limit),
        n => 3 + usize::from(response[n - hint.len()].unsigned_abs() <= binf),
    }
}

#[test]
fn random_numbers_near_their_limits() {
    let mut random = Random(125);
    let mut met = [0; 5];
    for _ in 0..8_000 {
        let hint = few(&mut random, [1, 2, 3, 19, 20, 63]);
        let response = few(&mut random, [1, 33, 34, 48, 62, 63]);
        let largest = |numbers: &[i64]| numbers.iter().map(|number| number.unsigned_abs()).max().unwrap_or(0);
        let n = random.below(hint.len() + response.len() + 1);
        let part = sum(&hint[..n.min(hint.len())], &response[..n.saturating_sub(hint.len())]);
        let limits = [near(&mut random, largest(&hint)), near(&mut random, largest(&response)), near(&mut random, part)];
        let found = decision(limits, &hint, &response);
        assert_eq!(found, least_prefix(limits, &hint, &response), "limits {limits:?}, hint {hint:?}, response {response:?}");
        met[reason(found, limits, &hint, &response)] += 1;
    }
    assert!(met.iter().all(|&count| count > 400), "how often each reason was met: {met:?}");
}
