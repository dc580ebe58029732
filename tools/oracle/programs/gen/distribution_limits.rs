//! Inputs for `distribution` and `internal_bounds`: six words on both sides of every limit.

use crate::distributions::{
    EDGE_WORDS, EPSILON, TINY, choice, float, int, malformed, well_formed, with_word,
};
use crate::floats::around;
use crate::lists::{alternated, distinct, shuffled};
use crate::random_distributions;
use records::{
    DistributionWords, FLOAT, INT, LEAST_FLOAT, LEAST_TAKEN, MAX_CHOICES, MAX_FLOAT, MAX_INT,
};
use splitmix::SplitMix64;

/// Well-formed and malformed ones, and then ones on both sides of every limit.
pub fn edges() -> Vec<Vec<u64>> {
    let first = alternated([well_formed(), malformed()]);
    let limits = alternated([
        float_ends(false),
        float_ends(true),
        float_steps(),
        int_ends(false),
        int_ends(true),
        int_steps(),
        choice_counts(),
        with_one_word_replaced(),
    ]);
    distinct([first, limits].concat()).into_iter().map(Vec::from).collect()
}

pub fn random(rng: &mut SplitMix64) -> Vec<u64> {
    random_distributions::distribution(rng).to_vec()
}

/// Pairs of floats at the limits; each with itself first, then each with the next one.
fn float_ends(log: bool) -> Vec<DistributionWords> {
    let limits = [-MAX_FLOAT, -LEAST_FLOAT, LEAST_TAKEN, LEAST_FLOAT, MAX_FLOAT];
    let numbers = [-1.0, -TINY, -0.0, 0.0, TINY, 0.35, 1.0, 2.0 * MAX_FLOAT, f64::MAX];
    let others =
        [f64::NEG_INFINITY, f64::INFINITY, f64::NAN, f64::from_bits(f64::INFINITY.to_bits() + 1)];
    let mut ends: Vec<f64> = limits.into_iter().flat_map(around).chain(numbers).collect();
    ends.sort_by(f64::total_cmp);
    ends.extend(others);
    pairs(&ends).into_iter().map(|(low, high)| float(low, high, log, None)).collect()
}

fn int_ends(log: bool) -> Vec<DistributionWords> {
    let limits = [-MAX_INT, 0, MAX_INT].into_iter().flat_map(|end| [end - 1, end, end + 1]);
    let mut ends: Vec<i64> = limits.chain([i64::MIN, i64::MIN + 1, -5, 20, i64::MAX]).collect();
    ends.sort_unstable();
    pairs(&ends).into_iter().map(|(low, high)| int(low, high, log, None)).collect()
}

/// Each item with itself, then each with the next, and so on around the list.
fn pairs<T: Copy>(items: &[T]) -> Vec<(T, T)> {
    let shifted = |shift| items.iter().cycle().skip(shift).take(items.len());
    let of_shift = |shift| items.iter().zip(shifted(shift)).map(|(&a, &b)| (a, b));
    (0..items.len()).flat_map(of_shift).collect()
}

/// Steps at their limits and where the number of steps comes to 2^52 and above, in some ranges,
/// also without the flag. In some the rounded number differs from the exact one.
fn float_steps() -> Vec<DistributionWords> {
    let ranges = [
        (0.0, 1.0),
        (0.0, 2.0),
        (-1.0, 1.0),
        (0.0, MAX_FLOAT),
        (-MAX_FLOAT, MAX_FLOAT),
        (-0.5, MAX_FLOAT),
        (-0.75, MAX_FLOAT),
        (-1.5, MAX_FLOAT),
        (0.0, 1.0 + EPSILON),
        (1.0, 1.0 + EPSILON),
        (1.0, MAX_FLOAT),
        (3.5, 3.5),
        (0.0, 0.35),
        (-0.1, 0.2),
        (-0.7, 0.9),
    ];
    let of_range = |(low, high): (f64, f64)| {
        let steps = float_steps_of(high - low).into_iter();
        steps.flat_map(move |step| {
            with_flags(FLOAT, (low.to_bits(), high.to_bits()), step.to_bits())
        })
    };
    shuffled(ranges.into_iter().flat_map(of_range))
}

fn float_steps_of(range: f64) -> Vec<f64> {
    let near_limits = [range / MAX_FLOAT, range / (MAX_FLOAT + 1.0), LEAST_FLOAT, 1.0];
    let others = [0.0, -0.0, -1.0, TINY, f64::MAX, f64::INFINITY, f64::NEG_INFINITY, f64::NAN];
    near_limits.into_iter().flat_map(around).chain(others).collect()
}

/// The step with and without its flag, on both scales.
fn with_flags(kind: u64, ends: (u64, u64), step: u64) -> [DistributionWords; 4] {
    [(0, 1), (1, 1), (0, 0), (1, 0)]
        .map(|(log, stepped)| [kind, ends.0, ends.1, log, stepped, step])
}

fn int_steps() -> Vec<DistributionWords> {
    let ranges = [(10, 20), (-5, 5), (7, 7), (-MAX_INT, MAX_INT), (1, MAX_INT)];
    let steps = [1, 0, -1, 2, MAX_INT - 1, MAX_INT, MAX_INT + 1, i64::MIN, i64::MAX, -MAX_INT];
    let of_range = |(low, high)| {
        steps
            .into_iter()
            .flat_map(move |step| with_flags(INT, (low as u64, high as u64), step as u64))
    };
    shuffled(ranges.into_iter().flat_map(of_range))
}

fn choice_counts() -> Vec<DistributionWords> {
    let limits = [0, 1, 2, MAX_CHOICES - 1, MAX_CHOICES, MAX_CHOICES + 1, MAX_CHOICES + 5];
    let large = [1 << 33, 1 << 52, 1 << 63, u64::MAX, 1.0_f64.to_bits()];
    limits.into_iter().chain(large).map(choice).collect()
}

/// A few distributions with each word in turn replaced by each of the edge words.
fn with_one_word_replaced() -> Vec<DistributionWords> {
    let originals = [
        float(0.0, 0.35, false, Some(0.01)),
        float(0.5, 2.0, true, None),
        int(10, 20, false, Some(4)),
        int(1, 1000, true, None),
        choice(5),
    ];
    let replaced = originals.into_iter().flat_map(|original| {
        (0..original.len()).flat_map(move |place| {
            EDGE_WORDS.iter().map(move |&word| with_word(original, place, word))
        })
    });
    shuffled(replaced)
}
