//! Document 01, section "Arithmetic": the stand-ins that both sides of a comparison share.

pub mod float;
pub mod generator;
pub mod methods;

/// A refusal by its number in document 01.
#[derive(Clone, Copy, Debug, PartialEq, Eq)]
pub struct Refusal(pub u64);

/// An argument outside the stated domain.
pub const OUT_OF_DOMAIN: Refusal = Refusal(11);
