//! Inputs for `sample_random`: generator words that lead to the ends of what is drawn.

use crate::clamped;
use crate::distributions::{malformed, with_each_well_formed};
use crate::draws::{state_before, word_edges, word_random};
use crate::internal::{Grid, bounds, edge_grid_points, random_grid_point};
use crate::lists::{alternated, distinct};
use crate::random_distributions;
use records::{CHOICE, DistributionWords};
use splitmix::SplitMix64;

/// Words to draw: unit floats of 0, next to 0, about a half and next to 1.
const DRAWS: &[u64] =
    &[1, (1 << 12) - 1, 1 << 12, (1 << 63) - 1, 1 << 63, u64::MAX - (1 << 12), u64::MAX];

pub fn edges() -> Vec<Vec<u64>> {
    let units = with_each_well_formed(|_| states(DRAWS));
    let remainders = with_each_well_formed(|d| states(&edge_remainders(d)));
    let halves = with_each_well_formed(|d| states(&edge_halves(d)));
    let words =
        with_each_well_formed(|_| word_edges().into_iter().step_by(9).map(|w| [w]).collect());
    let refused = malformed().into_iter().map(|d| ([1], d)).collect();
    let calls = alternated([units, remainders, halves, words, refused]);
    let others = calls.iter().map(|(w, d)| [w, &d[..]].concat()).collect();
    distinct([clamped::table_lines(), others].concat())
}

pub fn random(rng: &mut SplitMix64) -> Vec<u64> {
    let d = random_distributions::distribution(rng);
    let chosen = match rng.below(8) {
        0 => random_remainder(rng, &d),
        1 | 2 => random_half(rng, &d),
        3 => return clamped::random(rng),
        _ => None,
    };
    let state = match chosen {
        Some(drawn) => state_before(drawn),
        None if rng.below(64) == 0 => 0,
        None => word_random(rng),
    };
    [&[state], &d[..]].concat()
}

/// The generator's words before these are drawn. No word leads to 0.
fn states(drawn: &[u64]) -> Vec<[u64; 1]> {
    drawn.iter().filter(|&&word| word != 0).map(|&word| [state_before(word)]).collect()
}

/// How many values a remainder chooses from; none where a unit float is drawn.
pub fn width(words: &DistributionWords) -> Option<u64> {
    if words[0] == CHOICE {
        return records::distribution(words).map(|_| words[1]);
    }
    Grid::of(words).filter(|grid| !grid.log_scale).map(|grid| grid.steps as u64 + 1)
}

/// Words to draw that leave the first and the last remainder, and one between.
fn edge_remainders(words: &DistributionWords) -> Vec<u64> {
    let Some(width) = width(words) else { return vec![] };
    let top = u64::MAX - u64::MAX % width;
    vec![width / 2, width - 1, width, 2 * width - 1, top - 1, top]
}

fn random_remainder(rng: &mut SplitMix64, words: &DistributionWords) -> Option<u64> {
    let width = width(words)?;
    let multiple = u64::MAX / width - rng.sized(8).min(u64::MAX / width - 1);
    Some(multiple * width - rng.below(2))
}

/// Words to draw whose unit floats lead to the middle between grid points, on log scale.
fn edge_halves(words: &DistributionWords) -> Vec<u64> {
    if !has_log_grid(words) {
        return vec![];
    }
    let units = edge_grid_points(words, 0.5).into_iter().filter_map(|x| unit_digits(words, x));
    units
        .flat_map(|digits| [digits.saturating_sub(1), digits, digits + 1])
        .map(drawn_unit)
        .collect()
}

fn random_half(rng: &mut SplitMix64, words: &DistributionWords) -> Option<u64> {
    let grid = Grid::of(words).filter(|grid| grid.log_scale)?;
    let digits = unit_digits(words, random_grid_point(rng, &grid))?;
    Some(drawn_unit((digits + rng.below(5)).saturating_sub(2)))
}

fn has_log_grid(words: &DistributionWords) -> bool {
    Grid::of(words).is_some_and(|grid| grid.log_scale)
}

/// The 52 digits of the unit float that leads to about `x`, if one does.
fn unit_digits(words: &DistributionWords, x: f64) -> Option<u64> {
    let [low, high] = bounds(words)?;
    let unit = (x - low) / (high - low);
    (0.0..1.0).contains(&unit).then_some((unit * (1_u64 << 52) as f64) as u64)
}

/// A word that is drawn as a unit float of these digits.
fn drawn_unit(digits: u64) -> u64 {
    digits << 12 | 1
}
