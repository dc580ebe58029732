//! Lends the oracle's programs what the Rust keeps within its crate.

use crate::distribution::Distribution;
use crate::param::ParamValue;
use crate::sampler::{common, unclamped};

pub use crate::sampler::gp::lent::{
    Model, build_training_data, establish_param_mapping, expected_improvement, fit_gp,
    from_normalized, matern52, norm_cdf, norm_pdf, to_normalized,
};

pub fn internal_bounds(distribution: &Distribution) -> Option<(f64, f64)> {
    common::internal_bounds(distribution)
}

pub fn from_internal(value: f64, distribution: &Distribution) -> ParamValue {
    common::from_internal(value, distribution)
}

pub fn to_internal(value: &ParamValue, distribution: &Distribution) -> f64 {
    common::to_internal(value, distribution)
}

pub fn sample_random(rng: &mut fastrand::Rng, distribution: &Distribution) -> ParamValue {
    common::sample_random(rng, distribution)
}

/// As the Rust has it, without the clamp that `prepare` adds.
pub fn sample_random_unclamped(rng: &mut fastrand::Rng, distribution: &Distribution) -> ParamValue {
    unclamped::sample_random(rng, distribution)
}
