//! The modules of the Rust that the oracle runs, unchanged but for one clamp. `prepare` puts them beside this file.

pub mod distribution;
pub mod leaves;
pub mod param;
pub mod parameter;
pub(crate) mod rng_util;
pub mod sampler;
pub mod trial;
pub mod types;
