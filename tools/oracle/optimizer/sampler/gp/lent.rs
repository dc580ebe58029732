//! Lends what `gp.rs` keeps to itself. `prepare` makes this a child module of it, which sees its
//! private items.

use super::{DimensionInfo, GpModel, GpPhase, GpSampler, GpState};
use crate::distribution::Distribution;
use crate::parameter::ParamId;
use crate::sampler::CompletedTrial;

pub fn norm_pdf(x: f64) -> f64 {
    super::norm_pdf(x)
}

pub fn norm_cdf(x: f64) -> f64 {
    super::norm_cdf(x)
}

pub fn expected_improvement(mean: f64, std: f64, f_best: f64) -> f64 {
    super::expected_improvement(mean, std, f_best)
}

pub fn matern52(x1: &[f64], x2: &[f64], lengthscales: &[f64], signal_var: f64) -> f64 {
    super::matern52(x1, x2, lengthscales, signal_var)
}

pub fn to_normalized(value: f64, lo: f64, hi: f64) -> f64 {
    super::to_normalized(value, lo, hi)
}

pub fn from_normalized(value: f64, lo: f64, hi: f64) -> f64 {
    super::from_normalized(value, lo, hi)
}

/// A fitted model.
pub struct Model(GpModel);

pub fn fit_gp(x_train: &[Vec<f64>], y_train: &[f64], noise_var: f64) -> Option<Model> {
    super::fit_gp(x_train, y_train, noise_var).map(Model)
}

impl Model {
    pub fn best(&self) -> f64 {
        self.0.f_best
    }

    pub fn lengthscales(&self) -> &[f64] {
        &self.0.lengthscales
    }

    pub fn weights(&self) -> &[f64] {
        self.0.alpha.as_slice()
    }

    /// The lower triangle, row after row.
    pub fn factor(&self) -> Vec<f64> {
        self.0.cholesky.l_rows()
    }

    /// Mean and standard deviation.
    pub fn predict(&self, x: &[f64]) -> (f64, f64) {
        super::predict(&self.0, x)
    }

    pub fn optimize_acquisition(
        &self,
        n_dims: usize,
        n_candidates: usize,
        rng: &mut fastrand::Rng,
    ) -> Vec<f64> {
        super::optimize_acquisition(&self.0, n_dims, n_candidates, rng)
    }
}

pub fn establish_param_mapping(
    trial: &CompletedTrial,
    distributions: &[Distribution],
) -> Vec<Option<ParamId>> {
    super::establish_param_mapping(trial, &discovered(distributions))
}

/// The rows of coordinates and their values.
pub fn build_training_data(
    history: &[CompletedTrial],
    distributions: &[Distribution],
) -> (Vec<Vec<f64>>, Vec<f64>) {
    super::build_training_data(history, &discovered(distributions))
}

/// The dimensions as a discovery that asks for these distributions makes them, bounds included.
/// What it draws is not used.
fn discovered(distributions: &[Distribution]) -> Vec<DimensionInfo> {
    let mut state = GpState::new(None, None, None, Some(1));
    for distribution in distributions {
        super::sample_discovery(&mut state, distribution, 0);
    }
    state.dimensions
}

/// What a sampler keeps behind its mutex. The Rust has no `close`: dropping a trial's progress is
/// all that it would do there.
impl GpSampler {
    /// Whether discovery has ended.
    pub fn is_active(&self) -> bool {
        matches!(self.state.lock().phase, GpPhase::Active)
    }

    /// None before the first call.
    pub fn discovery_trial(&self) -> Option<u64> {
        self.state.lock().discovery_trial_id
    }

    pub fn dimension_count(&self) -> usize {
        self.state.lock().dimensions.len()
    }

    /// The number of trials with progress.
    pub fn place_count(&self) -> usize {
        self.state.lock().trial_progress.len()
    }

    pub fn has_place(&self, trial: u64) -> bool {
        self.state.lock().trial_progress.contains_key(&trial)
    }

    /// Drops the trial's progress; false where it has none.
    pub fn free_place(&self, trial: u64) -> bool {
        self.state.lock().trial_progress.remove(&trial).is_some()
    }

    /// Of a trial with progress: the dimension to serve next. The Rust counts on past the last one.
    pub fn next_dimension(&self, trial: u64) -> usize {
        let state = self.state.lock();
        state.trial_progress[&trial].next_dim.min(state.dimensions.len())
    }

    pub fn generator_word(&self) -> u64 {
        self.state.lock().rng.state()
    }

    /// How many words were drawn so far.
    pub fn words_drawn(&self) -> u64 {
        self.state.lock().rng.drawn()
    }

    pub fn candidate_count(&self) -> usize {
        self.state.lock().n_candidates
    }

    /// The model that a new trial gets with this history; none where its values are drawn.
    pub fn model(&self, history: &[CompletedTrial]) -> Option<Model> {
        let state = self.state.lock();
        let is_asked = state.dimensions.iter().any(|dimension| dimension.is_continuous)
            && history.len() >= state.n_startup_trials;
        let (x_train, y_train) = super::build_training_data(history, &state.dimensions);
        is_asked.then(|| fit_gp(&x_train, &y_train, state.noise_variance)).flatten()
    }

    /// Whether the values stored for the trial are this point's, choices left out.
    pub fn stores(&self, trial: u64, point: &[f64]) -> bool {
        let state = self.state.lock();
        let stored = state.dimensions.iter().zip(&state.trial_progress[&trial].values);
        let continuous = stored.filter(|(dimension, _)| dimension.is_continuous);
        continuous.zip(point).all(|((dimension, value), &coordinate)| {
            let (low, high) = dimension.bounds.expect("bounds of a continuous dimension");
            let decoded = super::from_normalized(coordinate, low, high);
            super::from_internal(decoded, &dimension.distribution) == *value
        })
    }
}
