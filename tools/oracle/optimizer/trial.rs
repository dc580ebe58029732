//! The type of user attributes, which a completed trial has and the sampler never reads.
