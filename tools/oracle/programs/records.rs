//! Words as the records of document 01, section "Records": distributions and values.

use leaf_lines::float_to_word;
use optimizer::distribution::{
    CategoricalDistribution, Distribution, FloatDistribution, IntDistribution,
};
use optimizer::param::ParamValue;

/// Kind, low, high, log, stepped and step.
pub type DistributionWords = [u64; 6];

/// The kinds of distributions and of values.
pub const FLOAT: u64 = 1;
pub const INT: u64 = 2;
pub const CHOICE: u64 = 3;

/// 2^52, the largest magnitude of an end, the largest integer step and the largest number of steps.
pub const MAX_INT: i64 = 1 << 52;
pub const MAX_FLOAT: f64 = MAX_INT as f64;
/// 2^-52, the least float step and the least low end on log scale.
pub const LEAST_FLOAT: f64 = 1.0 / MAX_FLOAT;
/// 2^53 and 2^-53, the limits of a taken float.
pub const MAX_TAKEN: f64 = 2.0 * MAX_FLOAT;
pub const LEAST_TAKEN: f64 = 1.0 / MAX_TAKEN;
/// 2^32, the largest number of choices.
pub const MAX_CHOICES: u64 = 1 << 32;

/// None for a malformed one.
pub fn distribution(words: &DistributionWords) -> Option<Distribution> {
    match words[0] {
        FLOAT => float_distribution(words).map(Distribution::Float),
        INT => int_distribution(words).map(Distribution::Int),
        CHOICE => choice_distribution(words).map(Distribution::Categorical),
        _ => None,
    }
}

fn float_distribution(words: &DistributionWords) -> Option<FloatDistribution> {
    let &[_, low, high, log, stepped, step] = words;
    let (low, high) = (f64::from_bits(low), f64::from_bits(high));
    let log_scale = flag(log)?;
    let step = optional_step(stepped, step)?.map(f64::from_bits);
    let well_formed = low.abs() <= MAX_FLOAT
        && high.abs() <= MAX_FLOAT
        && low <= high
        && (!log_scale || low >= LEAST_FLOAT)
        && step.is_none_or(|step| float_step_fits(low, high, step));
    well_formed.then_some(FloatDistribution { low, high, log_scale, step })
}

/// The number of steps is computed in rounded floats.
fn float_step_fits(low: f64, high: f64, step: f64) -> bool {
    step.is_finite() && step >= LEAST_FLOAT && ((high - low) / step).floor() <= MAX_FLOAT
}

fn int_distribution(words: &DistributionWords) -> Option<IntDistribution> {
    let &[_, low, high, log, stepped, step] = words;
    let (low, high) = (low as i64, high as i64);
    let log_scale = flag(log)?;
    let step = optional_step(stepped, step)?.map(|step| step as i64);
    let well_formed = int_fits(low)
        && int_fits(high)
        && low <= high
        && (!log_scale || low >= 1)
        && step.is_none_or(|step| (1..=MAX_INT).contains(&step));
    well_formed.then_some(IntDistribution { low, high, log_scale, step })
}

fn int_fits(value: i64) -> bool {
    (-MAX_INT..=MAX_INT).contains(&value)
}

fn choice_distribution(words: &DistributionWords) -> Option<CategoricalDistribution> {
    let &[_, count, ref others @ ..] = words;
    let well_formed = (1..=MAX_CHOICES).contains(&count) && *others == [0; 4];
    well_formed.then_some(CategoricalDistribution { n_choices: count as usize })
}

/// None for a word other than 0 and 1.
fn flag(word: u64) -> Option<bool> {
    match word {
        0 => Some(false),
        1 => Some(true),
        _ => None,
    }
}

/// The step's word where there is a step; the outer none is for a bad flag and for a word other
/// than zero where there is no step.
fn optional_step(stepped: u64, step: u64) -> Option<Option<u64>> {
    match (flag(stepped)?, step) {
        (true, step) => Some(Some(step)),
        (false, 0) => Some(None),
        (false, _) => None,
    }
}

/// None for an unknown kind.
pub fn value(kind: u64, word: u64) -> Option<ParamValue> {
    match kind {
        FLOAT => Some(ParamValue::Float(f64::from_bits(word))),
        INT => Some(ParamValue::Int(word as i64)),
        CHOICE => Some(ParamValue::Categorical(word as usize)),
        _ => None,
    }
}

/// A value's kind and its word.
pub fn value_words(value: &ParamValue) -> [u64; 2] {
    match *value {
        ParamValue::Float(v) => [FLOAT, float_to_word(v)],
        ParamValue::Int(v) => [INT, v as u64],
        ParamValue::Categorical(v) => [CHOICE, v as u64],
    }
}

/// The Taken rule; a value of another kind than the distribution's fails.
pub fn may_be_taken(value: &ParamValue, distribution: &Distribution) -> bool {
    match (value, distribution) {
        (ParamValue::Float(v), Distribution::Float(d)) => {
            v.abs() <= MAX_TAKEN && (!d.log_scale || *v >= LEAST_TAKEN)
        }
        (ParamValue::Int(v), Distribution::Int(d)) => int_fits(*v) && (!d.log_scale || *v >= 1),
        (ParamValue::Categorical(v), Distribution::Categorical(d)) => *v < d.n_choices,
        _ => false,
    }
}
