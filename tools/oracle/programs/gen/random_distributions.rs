//! Random distributions of all kinds and sizes, well-formed for the most part.

use crate::distributions::{EDGE_WORDS, choice, float, int, is_well_formed};
use crate::floats::{nudged, signed_with_exponent, with_exponent};
use records::{DistributionWords, LEAST_FLOAT, LEAST_TAKEN, MAX_CHOICES, MAX_FLOAT, MAX_INT};
use splitmix::SplitMix64;

/// Simple numbers, as people write them.
const DECIMALS: &[f64] =
    &[0.0, -0.0, 1.0, -1.0, 0.1, 0.5, 0.35, 0.01, 0.001, 1e-5, 2.0, 4.0, 10.0, 20.0, 100.0, -5.0];
const FLOAT_STEPS: &[f64] = &[0.01, 0.1, 0.25, 0.5, 1.0, 4.0, 0.001, 0.05, 7.0, 1e-6];
const INT_STEPS: &[i64] = &[1, 2, 3, 4, 5, 7, 10, 16, 100];

/// About 85 in a hundred are well-formed.
pub fn distribution(rng: &mut SplitMix64) -> DistributionWords {
    match rng.below(100) {
        0..=82 => candidate(rng, true),
        83..=90 => candidate(rng, false),
        _ => {
            let words = candidate(rng, true);
            damaged(rng, words)
        }
    }
}

pub fn well_formed(rng: &mut SplitMix64) -> DistributionWords {
    candidate(rng, true)
}

/// A well-formed one, or a malformed one that is not far from it.
fn candidate(rng: &mut SplitMix64, well_formed: bool) -> DistributionWords {
    let of_kind = match rng.below(8) {
        0..=3 => random_float,
        4..=6 => random_int,
        _ => random_choice,
    };
    loop {
        let words = of_kind(rng);
        if is_well_formed(&words) == well_formed {
            return words;
        }
    }
}

/// One word changed a little or altogether, now and then all of them. It may still be well-formed.
pub fn damaged(rng: &mut SplitMix64, mut words: DistributionWords) -> DistributionWords {
    let place = rng.below(6) as usize;
    words[place] = match rng.below(8) {
        0 => words[place] ^ 1 << rng.below(64),
        1 => words[place].wrapping_add(1),
        2 => words[place].wrapping_sub(1),
        3 => rng.next_word(),
        _ => rng.pick(EDGE_WORDS),
    };
    if rng.below(32) == 0 { [(); 6].map(|()| rng.next_word()) } else { words }
}

fn random_float(rng: &mut SplitMix64) -> DistributionWords {
    let log = rng.below(3) == 0;
    let (first, second) = random_float_ends(rng);
    let (first, second) = if log { (first.abs(), second.abs()) } else { (first, second) };
    let (low, high) = if first <= second { (first, second) } else { (second, first) };
    // A NaN range, of a malformed candidate, becomes a number here: its bits are not Rust's to promise.
    let range = (high - low).max(LEAST_FLOAT);
    let step = (rng.below(2) == 0).then(|| random_float_step(rng, range));
    float(low, high, log, step)
}

/// Any two, or the same, or two that are on both sides of 0 or close together.
pub fn random_float_ends(rng: &mut SplitMix64) -> (f64, f64) {
    let first = random_end(rng);
    let second = match rng.below(8) {
        0 => first,
        1 => -first,
        2 => f64::from_bits(nudged(rng, first.to_bits(), 3)),
        3 => first + f64::from_bits(with_exponent(rng, -60, 4)),
        4 => {
            let distance = 1 + rng.sized(52);
            f64::from_bits(nudged(rng, first.to_bits(), distance))
        }
        _ => random_end(rng),
    };
    (first, second)
}

fn random_end(rng: &mut SplitMix64) -> f64 {
    match rng.below(8) {
        0 | 1 => rng.pick(DECIMALS),
        2 => rng.between(-1000, 1000) as f64 / 100.0,
        3 => {
            let limit = rng.pick(&[-MAX_FLOAT, MAX_FLOAT, LEAST_FLOAT, LEAST_TAKEN]);
            f64::from_bits(nudged(rng, limit.to_bits(), 3))
        }
        _ => f64::from_bits(signed_with_exponent(rng, -60, 51)),
    }
}

/// Some make about 2^52 steps, some a few in the range.
fn random_float_step(rng: &mut SplitMix64, range: f64) -> f64 {
    match rng.below(8) {
        0 => f64::from_bits(nudged(rng, (range / MAX_FLOAT).to_bits(), 3)),
        1 => f64::from_bits(nudged(rng, LEAST_FLOAT.to_bits(), 3)),
        2 | 3 => rng.pick(FLOAT_STEPS),
        4 | 5 => range / (1 + rng.sized(20)) as f64,
        _ => f64::from_bits(with_exponent(rng, -53, 54)),
    }
}

fn random_int(rng: &mut SplitMix64) -> DistributionWords {
    let log = rng.below(3) == 0;
    let first = random_int_end(rng);
    let second = match rng.below(8) {
        0 => first,
        1 => first + rng.between(-3, 3),
        _ => random_int_end(rng),
    };
    let (first, second) = if log { (first.abs(), second.abs()) } else { (first, second) };
    let (low, high) = (first.min(second), first.max(second));
    let step = (rng.below(2) == 0).then(|| random_int_step(rng, high - low));
    int(low, high, log, step)
}

fn random_int_end(rng: &mut SplitMix64) -> i64 {
    match rng.below(8) {
        0 | 1 => rng.pick(&[0, 1, 2, 5, 9, 10, 20, 100, 1000, -1, -5, -10]),
        2 | 3 => rng.between(-1000, 1000),
        4 => rng.pick(&[-MAX_INT, MAX_INT]) + rng.between(-2, 2),
        _ => rng.pick(&[-1, 1]) * rng.sized(52) as i64,
    }
}

fn random_int_step(rng: &mut SplitMix64, range: i64) -> i64 {
    match rng.below(4) {
        0 => rng.pick(INT_STEPS),
        1 => 1 + rng.sized(52) as i64,
        2 => range / (1 + rng.sized(8) as i64) + rng.between(-1, 1),
        _ => 1 + rng.sized(8) as i64,
    }
}

fn random_choice(rng: &mut SplitMix64) -> DistributionWords {
    choice(match rng.below(4) {
        0 => MAX_CHOICES + 2 - rng.below(5),
        1 => rng.below(11),
        _ => 1 + rng.sized(32),
    })
}
