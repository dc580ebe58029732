//! Inputs for `taken` and `to_internal`: values of a distribution and of other kinds.

use crate::distributions::{Call, malformed, with_each_well_formed};
use crate::floats::{around, nudged, signed_with_exponent, uniform};
use crate::lists::{alternated, shuffled};
use crate::random_distributions;
use optimizer::distribution::Distribution;
use records::{
    CHOICE, DistributionWords, FLOAT, INT, LEAST_FLOAT, LEAST_TAKEN, MAX_FLOAT, MAX_INT, MAX_TAKEN,
};
use splitmix::SplitMix64;

const KINDS: [u64; 3] = [FLOAT, INT, CHOICE];

/// Words that are no kind of a value.
const OTHER_KINDS: &[u64] = &[0, 4, 5, u64::MAX, 1 << 63, (1 << 32) + 1, 1.0_f64.to_bits()];

const FLOAT_LIMITS: &[f64] =
    &[-MAX_TAKEN, -MAX_FLOAT, -LEAST_TAKEN, 0.0, LEAST_TAKEN, LEAST_FLOAT, MAX_FLOAT, MAX_TAKEN];

const ODD_FLOATS: &[f64] = &[-0.0, f64::NAN, f64::INFINITY, f64::NEG_INFINITY, f64::MAX];

pub fn taken_edges() -> Vec<Vec<u64>> {
    let values = with_each_well_formed(|d| edge_values(d).into_iter().map(|v| [v]).collect());
    let [floats, ints, indices] = KINDS.map(|kind| of_kind(kind, &values));
    let refused = malformed().into_iter().map(|d| ([0], d)).collect();
    let calls = alternated([floats, ints, indices, refused]);
    calls.iter().map(|(v, d)| [&d[..], v].concat()).collect()
}

pub fn taken_random(rng: &mut SplitMix64) -> Vec<u64> {
    let d = random_distributions::distribution(rng);
    let v = random_value(rng, &d);
    [&d[..], &[v]].concat()
}

pub fn to_internal_edges() -> Vec<Vec<u64>> {
    let values = with_each_well_formed(|d| values_of_kinds(d, &KINDS));
    let (own, mismatched): (Vec<_>, Vec<_>) =
        values.iter().partition(|([kind, _], d)| *kind == d[0]);
    let [floats, ints, indices] = KINDS.map(|kind| of_kind(kind, &own));
    let zeros = shuffled([indices, mismatched].concat());
    let calls = alternated([floats, ints, zeros, to_internal_refused()]);
    calls.iter().map(|(value, d)| [value, &d[..]].concat()).collect()
}

/// Values of no kind, and malformed distributions.
fn to_internal_refused() -> Vec<Call<2>> {
    let of_no_kind =
        with_each_well_formed(|d| OTHER_KINDS.iter().map(|&kind| [kind, d[1]]).collect());
    let of_malformed = malformed().into_iter().map(|d| ([d[0], d[1]], d));
    alternated([of_no_kind, of_malformed.collect()])
}

pub fn to_internal_random(rng: &mut SplitMix64) -> Vec<u64> {
    let d = random_distributions::distribution(rng);
    let kind = match rng.below(16) {
        0 => rng.pick(OTHER_KINDS),
        1 | 2 => rng.pick(&KINDS),
        _ => d[0],
    };
    let v = random_value(rng, &d);
    [&[kind, v], &d[..]].concat()
}

/// Each kind with each value.
fn values_of_kinds(d: &DistributionWords, kinds: &[u64]) -> Vec<[u64; 2]> {
    let values = edge_values(d);
    kinds.iter().flat_map(|&kind| values.iter().map(move |&v| [kind, v])).collect()
}

fn of_kind<const N: usize>(kind: u64, calls: &[Call<N>]) -> Vec<Call<N>> {
    calls.iter().filter(|(_, d)| d[0] == kind).copied().collect()
}

/// Values on both sides of the Taken rule's limits and of the distribution's ends.
pub fn edge_values(words: &DistributionWords) -> Vec<u64> {
    match records::distribution(words) {
        Some(Distribution::Float(d)) => edge_floats(d.low, d.high),
        Some(Distribution::Int(d)) => edge_ints(d.low, d.high),
        Some(Distribution::Categorical(d)) => edge_indices(d.n_choices as u64),
        None => vec![],
    }
}

fn edge_floats(low: f64, high: f64) -> Vec<u64> {
    let limits = [&[low, high], FLOAT_LIMITS].concat().into_iter().flat_map(around);
    limits.chain(ODD_FLOATS.iter().copied()).map(f64::to_bits).collect()
}

fn edge_ints(low: i64, high: i64) -> Vec<u64> {
    let limits = [-MAX_INT, 0, MAX_INT, low, high].into_iter().flat_map(|v| [v - 1, v, v + 1]);
    limits.chain([i64::MIN, i64::MAX, 1 << 53]).map(|v| v as u64).collect()
}

fn edge_indices(count: u64) -> Vec<u64> {
    vec![0, 1, count - 1, count, count + 1, 1 << 31, 1 << 32, 1 << 63, u64::MAX]
}

/// A value for the distribution's kind, for the most part a taken one.
fn random_value(rng: &mut SplitMix64, words: &DistributionWords) -> u64 {
    if rng.below(16) == 0 {
        return rng.next_word();
    }
    match records::distribution(words) {
        Some(Distribution::Float(d)) => random_float(rng, d.low, d.high).to_bits(),
        Some(Distribution::Int(d)) => random_int(rng, d.low, d.high) as u64,
        Some(Distribution::Categorical(d)) => random_index(rng, d.n_choices as u64),
        None => rng.sized(64),
    }
}

/// A value that a well-formed distribution's Taken rule allows.
pub fn taken_value(rng: &mut SplitMix64, words: &DistributionWords) -> u64 {
    loop {
        let word = random_value(rng, words);
        if is_taken(words, word) {
            return word;
        }
    }
}

/// A value between the ends of a well-formed distribution.
pub fn inner_value(rng: &mut SplitMix64, words: &DistributionWords) -> u64 {
    match records::distribution(words).expect("a well-formed distribution") {
        Distribution::Float(d) => uniform(rng, d.low, d.high).to_bits(),
        Distribution::Int(d) => rng.between(d.low, d.high) as u64,
        Distribution::Categorical(d) => rng.below(d.n_choices as u64),
    }
}

pub fn is_taken(words: &DistributionWords, word: u64) -> bool {
    let pair = records::value(words[0], word).zip(records::distribution(words));
    pair.is_some_and(|(value, d)| records::may_be_taken(&value, &d))
}

fn random_float(rng: &mut SplitMix64, low: f64, high: f64) -> f64 {
    match rng.below(8) {
        0 => {
            let limit = rng.pick(FLOAT_LIMITS);
            f64::from_bits(nudged(rng, limit.to_bits(), 2))
        }
        1 => {
            let end = rng.pick(&[low, high]);
            f64::from_bits(nudged(rng, end.to_bits(), 2))
        }
        2 | 3 => f64::from_bits(signed_with_exponent(rng, -54, 53)),
        4 => f64::from_bits(signed_with_exponent(rng, -54, 53)).abs(),
        _ => uniform(rng, low, high),
    }
}

fn random_int(rng: &mut SplitMix64, low: i64, high: i64) -> i64 {
    match rng.below(8) {
        0 => rng.pick(&[-MAX_INT, 0, MAX_INT]) + rng.between(-2, 2),
        1 => rng.pick(&[low, high]) + rng.between(-2, 2),
        2 => -(rng.sized(53) as i64),
        3 => rng.sized(53) as i64,
        _ => rng.between(low, high),
    }
}

fn random_index(rng: &mut SplitMix64, count: u64) -> u64 {
    match rng.below(4) {
        0 => (count + rng.below(3)).saturating_sub(1),
        1 => rng.sized(64),
        _ => rng.below(count),
    }
}
