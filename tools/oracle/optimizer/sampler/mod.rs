//! The sampler trait and the completed trial.

pub(crate) mod common;
pub mod gp;
pub(crate) mod unclamped;

use std::collections::HashMap;

use crate::distribution::Distribution;
use crate::param::ParamValue;
use crate::parameter::ParamId;
use crate::trial::AttrValue;
use crate::types::TrialState;
