//! Inputs for `from_internal`: internal values within a distribution's bounds and about them.

use crate::distributions::{Call, float, int, malformed, with_each_well_formed};
use crate::floats::{ODD_FLOATS, around, nudged, uniform};
use crate::lists::{alternated, distinct};
use crate::random_distributions;
use arithmetic::float::ln;
use optimizer::distribution::Distribution;
use optimizer::leaves;
use records::DistributionWords;
use splitmix::SplitMix64;

pub fn edges() -> Vec<Vec<u64>> {
    let limits = with_each_well_formed(|d| words_around(&limits(d)));
    let bounds = with_each_well_formed(|d| words_around(&bounds(d).map_or(vec![], Vec::from)));
    let middles = with_each_well_formed(|d| words_around(&edge_grid_points(d, 0.5)));
    let points = with_each_well_formed(|d| words_around(&edge_grid_points(d, 0.0)));
    let odd = with_each_well_formed(|_| ODD_FLOATS.iter().map(|x| [x.to_bits()]).collect());
    let refused = malformed().into_iter().map(|d| ([d[1]], d)).collect();
    let others = alternated([limits, bounds, middles, points, alternated([odd, refused])]);
    let calls = distinct([chosen(), others].concat());
    calls.iter().map(|(x, d)| [x, &d[..]].concat()).collect()
}

/// The sample book's cases, signs of zeros, a float below a half, and limits that rounding moves outward.
fn chosen() -> Vec<Call<1>> {
    let calls = [
        (16.0, int(10, 20, false, Some(4))),
        (21.0, int(10, 20, false, Some(4))),
        (-2.5, int(-5, 5, false, None)),
        (-0.1, float(-0.0, 1.0, false, Some(0.5))),
        (0.1, float(-0.0, 1.0, false, Some(0.5))),
        (-0.0, float(0.0, 1.0, false, None)),
        (0.0, float(-1.0, -0.0, false, None)),
        (0.5_f64.next_down(), int(0, 9, false, None)),
        (0.1 - 1.0, float(0.1, 0.9, false, Some(0.1))),
        (0.35 + 1.0, float(0.0, 0.35, false, Some(0.01))),
    ];
    calls.map(|(x, d)| ([x.to_bits()], d)).to_vec()
}

pub fn random(rng: &mut SplitMix64) -> Vec<u64> {
    let d = random_distributions::distribution(rng);
    let x = random_point(rng, &d);
    [&[x.to_bits()], &d[..]].concat()
}

fn words_around(points: &[f64]) -> Vec<[u64; 1]> {
    points.iter().flat_map(|&x| around(x)).map(|x| [x.to_bits()]).collect()
}

/// The ends of what decode takes; for a choice, which it does not take, two numbers.
fn limits(words: &DistributionWords) -> [f64; 2] {
    bounds(words).map_or([0.0, 1.0], |[low, high]| [low - 1.0, high + 1.0])
}

pub fn bounds(words: &DistributionWords) -> Option<[f64; 2]> {
    leaves::internal_bounds(&records::distribution(words)?).map(|(low, high)| [low, high])
}

/// Points `offset` steps after the first and last few grid points, some of them outside the range.
pub fn edge_grid_points(words: &DistributionWords, offset: f64) -> Vec<f64> {
    let Some(grid) = Grid::of(words) else { return vec![] };
    let numbers = [-1.0, 0.0, 1.0, 2.0, (grid.steps / 2.0).floor(), grid.steps - 1.0, grid.steps];
    numbers.into_iter().filter_map(|number| grid.point(number + offset)).collect()
}

fn random_point(rng: &mut SplitMix64, words: &DistributionWords) -> f64 {
    match (rng.below(32), bounds(words), Grid::of(words)) {
        (0, ..) | (_, None, _) => f64::from_bits(rng.next_word()),
        (1..=4, ..) => near(rng, limits(words)),
        (5..=8, Some(bounds), _) => near(rng, bounds),
        (9..=20, _, Some(grid)) => {
            let point = random_grid_point(rng, &grid);
            f64::from_bits(nudged(rng, point.to_bits(), 2))
        }
        _ => {
            let [low, high] = limits(words);
            uniform(rng, low, high)
        }
    }
}

/// A float not far from one of the ends.
fn near(rng: &mut SplitMix64, ends: [f64; 2]) -> f64 {
    let end = rng.pick(&ends);
    let distance = 1 + rng.sized(20);
    f64::from_bits(nudged(rng, end.to_bits(), distance))
}

/// A grid point or, more often, the middle between two.
pub fn random_grid_point(rng: &mut SplitMix64, grid: &Grid) -> f64 {
    let number = (uniform(rng, 0.0, 1.0) * grid.steps).round();
    grid.point(number + rng.pick(&[0.0, 0.5, 0.5])).unwrap_or(0.0)
}

/// What decode and the random draw round to; a float without a step has none.
pub struct Grid {
    low: f64,
    step: f64,
    pub steps: f64,
    pub log_scale: bool,
}

impl Grid {
    pub fn of(words: &DistributionWords) -> Option<Self> {
        let (low, step, steps, log_scale) = match records::distribution(words)? {
            Distribution::Float(d) => {
                let step = d.step?;
                (d.low, step, ((d.high - d.low) / step).floor(), d.log_scale)
            }
            Distribution::Int(d) => {
                let step = d.step.unwrap_or(1);
                (d.low as f64, step as f64, ((d.high - d.low) / step) as f64, d.log_scale)
            }
            Distribution::Categorical(_) => return None,
        };
        Some(Self { low, step, steps, log_scale })
    }

    /// The internal value of the point with this number from low on; none where there is no logarithm.
    pub fn point(&self, number: f64) -> Option<f64> {
        let value = self.low + number * self.step;
        if self.log_scale { ln(value).ok() } else { Some(value) }
    }
}
