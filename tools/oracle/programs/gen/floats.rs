//! Inputs for the leaves of one float: edge words, and random words where the leaf is interesting.

use splitmix::SplitMix64;
use std::f64::consts::{LOG2_E, SQRT_2};

const SIGN: u64 = 1 << 63;

/// Where exp changes its answer: its own limits, and those of the exact exponential.
const EXP_LIMITS: &[f64] = &[
    -708.0,
    709.0,
    -708.3964185322641,
    709.782712893384,
    -745.1332191019412,
    -709.0,
    708.0,
    710.0,
    -707.0,
    -1.0,
];

/// The exponents k around which exp rounds x * log2(e).
const EXP_SCALES: std::ops::RangeInclusive<i64> = -1022..=1023;

/// Zeros, the least numbers, the largest, infinities and a NaN.
pub const ODD_FLOATS: &[f64] = &[
    0.0,
    -0.0,
    f64::from_bits(1),
    -f64::MIN_POSITIVE,
    f64::MAX,
    f64::INFINITY,
    f64::NEG_INFINITY,
    f64::NAN,
];

pub fn exp_edges() -> Vec<u64> {
    let limits = EXP_LIMITS.iter().flat_map(|&x| neighbours(x.to_bits()));
    let mut scales: Vec<i64> = EXP_SCALES.collect();
    scales.sort_by_key(|k| k.abs());
    let splits = scales.into_iter().flat_map(|k| neighbours(exp_split(k)));
    joined([common_edges(), limits.collect(), splits.collect(), powers_of_two()])
}

pub fn exp_random(rng: &mut SplitMix64) -> u64 {
    match rng.below(8) {
        0 => rng.next_word(),
        1 => {
            let k = rng.between(*EXP_SCALES.start(), *EXP_SCALES.end());
            nudged(rng, exp_split(k), 3)
        }
        2 => {
            let limit = rng.pick(EXP_LIMITS).to_bits();
            nudged(rng, limit, 1 << 20)
        }
        3 => signed_with_exponent(rng, -60, 9),
        _ => uniform(rng, -745.0, 710.0).to_bits(),
    }
}

pub fn ln_edges() -> Vec<u64> {
    let mut exponents: Vec<i64> = (-1022..=1023).collect();
    exponents.sort_by_key(|e| e.abs());
    let splits = exponents.into_iter().flat_map(|e| neighbours(ln_split(e)));
    joined([common_edges(), splits.collect(), powers_of_two()])
}

pub fn ln_random(rng: &mut SplitMix64) -> u64 {
    match rng.below(8) {
        0 => rng.next_word(),
        1 => {
            let e = rng.between(-1022, 1023);
            nudged(rng, ln_split(e), 3)
        }
        2 => {
            let distance = 1 + rng.sized(52);
            nudged(rng, 1.0_f64.to_bits(), distance)
        }
        _ => with_exponent(rng, -1022, 1023),
    }
}

pub fn sqrt_edges() -> Vec<u64> {
    let roots = (1..=64).chain([(1 << 26) - 1, 1 << 26, 94_906_265, 94_906_266]);
    let squares = roots.flat_map(|root| neighbours(square(root)));
    joined([common_edges(), squares.collect(), powers_of_two()])
}

pub fn sqrt_random(rng: &mut SplitMix64) -> u64 {
    match rng.below(8) {
        0 => rng.next_word(),
        1 | 2 => {
            let root = 1 + rng.sized(27);
            let scaled = square(root).wrapping_add(scale_by_4(rng));
            nudged(rng, scaled, 1)
        }
        3 => {
            let middle = squared_middle(rng).wrapping_add(scale_by_4(rng));
            nudged(rng, middle, 1)
        }
        4 => rng.sized(52),
        _ => with_exponent(rng, -1022, 1023),
    }
}

/// For round and floor.
pub fn whole_edges() -> Vec<u64> {
    let small = (0..=40).map(|n| f64::from(n) / 2.0);
    let large = (5..=53).flat_map(|e| [-0.5, 0.5, 1.5].map(|d| (1_u64 << e) as f64 + d));
    let near_whole = small.chain(large).flat_map(|x| neighbours(x.to_bits()));
    joined([common_edges(), both_signs(near_whole.collect()), powers_of_two()])
}

/// For round and floor: many near whole numbers and halves.
pub fn whole_random(rng: &mut SplitMix64) -> u64 {
    let sign = rng.next_word() & SIGN;
    match rng.below(8) {
        0 => rng.next_word(),
        1 | 2 => {
            let half = rng.sized(52) as f64 + 0.5;
            nudged(rng, half.to_bits() | sign, 2)
        }
        3 | 4 => {
            let whole = rng.sized(54) as f64;
            nudged(rng, whole.to_bits() | sign, 2)
        }
        _ => signed_with_exponent(rng, -3, 54),
    }
}

/// Zeros, subnormals, infinities, NaN patterns, and halves and whole numbers of some sizes.
pub fn common_edges() -> Vec<u64> {
    let ends = [0, 1, 2, 1 << 51, (1 << 52) - 1, 1 << 52, (1 << 52) + 1]
        .into_iter()
        .chain([f64::MAX.to_bits(), f64::INFINITY.to_bits()]);
    let nans = [1, 1 << 50, (1 << 51) - 1, 1 << 51, (1 << 51) + 1, (1 << 52) - 1]
        .map(|payload| f64::INFINITY.to_bits() | payload);
    let sizes = [0.5, 1.0, 1.5, 2.0, 2.5]
        .into_iter()
        .chain([51, 52, 53, 54, 62, 63, 64].map(|e| 2_f64.powi(e)));
    let numbers = sizes.flat_map(|x| neighbours(x.to_bits()));
    both_signs(ends.chain(nans).chain(numbers).collect())
}

/// Every power of two, subnormal ones too, and its neighbours.
pub fn powers_of_two() -> Vec<u64> {
    let subnormal = (0..52).map(|bit| 1 << bit);
    let normal = (1..=2046).map(|exponent| exponent << 52);
    both_signs(subnormal.chain(normal).flat_map(neighbours).collect())
}

/// The float where exp's k goes from `k` to the next whole number, or one next to it.
pub fn exp_split(k: i64) -> u64 {
    ((k as f64 + 0.5) / LOG2_E).to_bits()
}

/// The largest float of exponent `e` whose mantissa ln does not halve.
fn ln_split(e: i64) -> u64 {
    (SQRT_2.to_bits() as i64 + (e << 52)) as u64
}

fn square(root: u64) -> u64 {
    ((root * root) as f64).to_bits()
}

/// About the square of the middle between two neighbouring floats from 1 to 2:
/// its root is hard to round.
fn squared_middle(rng: &mut SplitMix64) -> u64 {
    let middle = u128::from(1 << 53 | rng.next_word() >> 11 | 1);
    ((middle * middle) as f64 / 2_f64.powi(106)).to_bits()
}

/// What to add to a word of moderate size to multiply it by a power of 4.
fn scale_by_4(rng: &mut SplitMix64) -> u64 {
    (rng.between(-480, 480) as u64) << 53
}

/// A float of either sign with an exponent from low to high.
pub fn signed_with_exponent(rng: &mut SplitMix64, low: i64, high: i64) -> u64 {
    rng.next_word() & SIGN | with_exponent(rng, low, high)
}

/// A positive float with an exponent from low to high.
pub fn with_exponent(rng: &mut SplitMix64, low: i64, high: i64) -> u64 {
    let exponent = (rng.between(low, high) + 1023) as u64;
    exponent << 52 | rng.next_word() >> 12
}

pub fn uniform(rng: &mut SplitMix64, low: f64, high: f64) -> f64 {
    low + (rng.next_word() >> 11) as f64 / (1_u64 << 53) as f64 * (high - low)
}

/// A word at most `distance` away.
pub fn nudged(rng: &mut SplitMix64, word: u64, distance: u64) -> u64 {
    let distance = distance as i64;
    word.wrapping_add(rng.between(-distance, distance) as u64)
}

/// The float and the two next to it, across zero too.
pub fn around(x: f64) -> [f64; 3] {
    [x.next_down(), x, x.next_up()]
}

pub fn neighbours(word: u64) -> [u64; 3] {
    [word.wrapping_sub(1), word, word.wrapping_add(1)]
}

pub fn both_signs(words: Vec<u64>) -> Vec<u64> {
    words.into_iter().flat_map(|word| [word, word ^ SIGN]).collect()
}

fn joined<const N: usize>(lists: [Vec<u64>; N]) -> Vec<u64> {
    lists.concat()
}
