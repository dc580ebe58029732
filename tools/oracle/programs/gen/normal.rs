//! Inputs for `norm_pdf`, `norm_cdf` and `expected_improvement`.

use crate::floats::{
    ODD_FLOATS, around, both_signs, common_edges, exp_split, neighbours, nudged, powers_of_two,
    signed_with_exponent, uniform, with_exponent,
};
use crate::lists::shuffled;
use splitmix::SplitMix64;

/// Ends of norm_cdf, about where exp(-x * x / 2) comes to 0, and where x * x / 2 overflows.
const LIMITS: &[f64] =
    &[8.0, 8.5, 37.6, 37.63, 37.64, 38.0, 38.5, 39.0, 40.0, 1e-8, 1.9e154, 1.4e-154, 1e300];

/// The least deviation that is divided by.
const LEAST_STD: f64 = 1e-12;

pub fn edges() -> Vec<u64> {
    let limits = LIMITS.iter().copied().chain([zero_pdf()]).flat_map(|x| neighbours(x.to_bits()));
    let eighths = (1..=80).map(|n| (f64::from(n) / 8.0).to_bits());
    let splits = (0..1021).flat_map(|k| neighbours(pdf_split(k)));
    let numbers = [limits.collect(), eighths.collect(), splits.collect()].map(both_signs);
    [common_edges(), numbers.concat(), powers_of_two()].concat()
}

pub fn random(rng: &mut SplitMix64) -> u64 {
    match rng.below(8) {
        0 => rng.next_word(),
        1 => {
            let limit = rng.pick(LIMITS) * rng.pick(&[1.0, -1.0]);
            nudged(rng, limit.to_bits(), 1 << 20)
        }
        2 => {
            let k = rng.between(0, 1020);
            nudged(rng, pdf_split(k), 3)
        }
        3 => signed_with_exponent(rng, -60, 6),
        4 => uniform(rng, -40.0, 40.0).to_bits(),
        _ => uniform(rng, -8.5, 8.5).to_bits(),
    }
}

/// About where x * x / 2 is 708.
fn zero_pdf() -> f64 {
    1416_f64.sqrt()
}

/// About where exp's k for -x * x / 2 goes from `-k` to the next lower whole number.
fn pdf_split(k: i64) -> u64 {
    (2.0 * f64::from_bits(exp_split(k))).sqrt().to_bits()
}

/// Mean, deviation and best value: the sample book's first, then every deviation with others.
pub fn improvement_edges() -> Vec<Vec<u64>> {
    let chosen = [[2.0, 0.0, 3.0], [2.0, 0.0, 1.0], [0.0, 1.0, 8.5], [0.5, 0.25, 0.5]];
    let deviations = edge_deviations();
    let pairs = deviations
        .iter()
        .flat_map(|&std| edge_means(std).into_iter().map(move |(mean, best)| [mean, std, best]));
    chosen.into_iter().chain(shuffled(pairs)).map(improvement_words).collect()
}

fn edge_deviations() -> Vec<f64> {
    let limits = [LEAST_STD, 0.0, -LEAST_STD].into_iter().flat_map(around);
    let numbers = [-1.0, 1e-300, 1e-9, 0.5, 1.0, 3.0, 1e300];
    limits.chain(numbers).chain(ODD_FLOATS.iter().copied()).collect()
}

/// Means and best values: equal, some deviations apart, of other sizes, and odd ones.
fn edge_means(std: f64) -> Vec<(f64, f64)> {
    let distances = [0.5, 1.0, 8.0, 38.0, 40.0].into_iter().flat_map(|z| [z, -z]);
    let near = distances.flat_map(|z| around(z * std)).map(|best| (0.0, best));
    let numbers = [(0.7, 0.7), (2.0, 3.0), (2.0, 1.0), (-1e-13, 1e-13), (1e300, -1e300)];
    let odd = ODD_FLOATS.iter().flat_map(|&x| [(x, x), (x, 1.0), (1.0, x), (x, -x)]);
    near.chain(numbers).chain(odd).collect()
}

pub fn improvement_random(rng: &mut SplitMix64) -> Vec<u64> {
    let std = random_deviation(rng);
    let mean = random_mean(rng);
    let best = match rng.below(8) {
        0 => random_mean(rng),
        1 => {
            let limit = mean + rng.pick(&[8.0, -8.0, 38.0, -38.0]) * std;
            f64::from_bits(nudged(rng, limit.to_bits(), 3))
        }
        2 => mean,
        _ => mean + uniform(rng, -9.0, 9.0) * std,
    };
    improvement_words([mean, std, best])
}

fn random_deviation(rng: &mut SplitMix64) -> f64 {
    match rng.below(16) {
        0 => f64::from_bits(rng.next_word()),
        1 => f64::from_bits(nudged(rng, LEAST_STD.to_bits(), 1 << 20)),
        2 => rng.pick(ODD_FLOATS),
        3 => f64::from_bits(signed_with_exponent(rng, -60, 10)),
        4 | 5 => f64::from_bits(with_exponent(rng, -45, 0)),
        _ => uniform(rng, 0.0, 1.0),
    }
}

fn random_mean(rng: &mut SplitMix64) -> f64 {
    match rng.below(16) {
        0 => f64::from_bits(rng.next_word()),
        1 => rng.pick(ODD_FLOATS),
        2 | 3 => f64::from_bits(signed_with_exponent(rng, -60, 10)),
        _ => uniform(rng, -3.0, 3.0),
    }
}

fn improvement_words(floats: [f64; 3]) -> Vec<u64> {
    floats.map(f64::to_bits).to_vec()
}
