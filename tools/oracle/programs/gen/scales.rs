//! Inputs for `to_normalized` and `from_normalized`: a value and the ends of a range.

use crate::floats::{around, nudged, signed_with_exponent, uniform};
use crate::lists::shuffled;
use splitmix::SplitMix64;

/// Shorter ranges normalise to a half.
const LEAST_RANGE: f64 = 1e-15;

const RANGES: &[(f64, f64)] = &[
    (0.0, 1.0),
    (-5.0, 5.0),
    (10.0, 20.0),
    (0.1, 0.3),
    (1.0, 0.0),
    (7.0, 7.0),
    (0.0, -0.0),
    (-4503599627370496.0, 4503599627370496.0),
    (4503599627370495.0, 4503599627370496.0),
    (-36.04365338911715, 36.04365338911715),
    (1e-300, 2e-300),
    (-f64::MAX, f64::MAX),
    (0.0, f64::MAX),
    (0.0, f64::INFINITY),
    (f64::NEG_INFINITY, f64::INFINITY),
    (f64::INFINITY, f64::INFINITY),
    (f64::NAN, 1.0),
    (0.0, f64::NAN),
];

const VALUES: &[f64] = &[
    0.5,
    0.0,
    -0.0,
    1.0,
    f64::from_bits(0x3fef_ffff_ffff_ffff),
    -3.0,
    f64::from_bits(1),
    1e300,
    f64::INFINITY,
    f64::NEG_INFINITY,
    f64::NAN,
];

pub fn edges() -> Vec<Vec<u64>> {
    let ranges = RANGES.iter().copied().chain(short_ranges());
    let calls = ranges.flat_map(|(low, high)| {
        let own = [low, high, low + (high - low) / 3.0].into_iter().flat_map(around);
        VALUES.iter().copied().chain(own).map(move |value| words([value, low, high]))
    });
    shuffled(calls)
}

/// Ranges about as long as the least one, upward and downward.
fn short_ranges() -> Vec<(f64, f64)> {
    let at_zero = around(LEAST_RANGE).into_iter().flat_map(|x| [(0.0, x), (0.0, -x), (x, 0.0)]);
    let at_one = (3..=6).map(|units| (1.0, 1.0 + f64::from(units) * f64::EPSILON));
    let at_tenth = around(0.1 + LEAST_RANGE).map(|high| (0.1, high));
    at_zero.chain(at_one).chain(at_tenth).collect()
}

pub fn random(rng: &mut SplitMix64) -> Vec<u64> {
    let low = random_end(rng);
    let high = match rng.below(8) {
        0 => random_end(rng),
        1 => low,
        2 => f64::from_bits(nudged(rng, low.to_bits(), 16)),
        3 => low + uniform(rng, -2.0, 2.0) * LEAST_RANGE,
        _ => low + f64::from_bits(signed_with_exponent(rng, -20, 20)).abs(),
    };
    let value = match rng.below(8) {
        0 => random_end(rng),
        1 => rng.pick(VALUES),
        2..=4 => uniform(rng, low, high),
        _ => uniform(rng, 0.0, 1.0),
    };
    words([value, low, high])
}

fn random_end(rng: &mut SplitMix64) -> f64 {
    match rng.below(16) {
        0 => f64::from_bits(rng.next_word()),
        1 => rng.pick(VALUES),
        2..=5 => f64::from_bits(signed_with_exponent(rng, -52, 52)),
        6..=8 => rng.between(-100, 100) as f64,
        _ => uniform(rng, -10.0, 10.0),
    }
}

fn words(floats: [f64; 3]) -> Vec<u64> {
    floats.map(f64::to_bits).to_vec()
}
