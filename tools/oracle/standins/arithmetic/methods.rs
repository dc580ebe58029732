//! The stand-ins as methods, under names that the standard library does not have:
//! `prepare` renames `.sqrt()` to `.standin_sqrt()` and so on in the copied Rust.

use crate::float;
use std::borrow::Borrow;

pub trait FloatMethods {
    fn standin_abs(self) -> f64;
    fn standin_max(self, floor: f64) -> f64;
    fn standin_min(self, later: f64) -> f64;
    fn standin_powi(self, exponent: i32) -> f64;
    fn standin_sqrt(self) -> f64;
    fn standin_round(self) -> f64;
    fn standin_floor(self) -> f64;
    fn standin_exp(self) -> f64;
    fn standin_ln(self) -> f64;
}

impl FloatMethods for f64 {
    fn standin_abs(self) -> f64 {
        f64::from_bits(self.to_bits() & !(1 << 63))
    }

    fn standin_max(self, floor: f64) -> f64 {
        float::max(self, floor)
    }

    fn standin_min(self, later: f64) -> f64 {
        float::min(self, later)
    }

    /// The Rust has squares alone: one multiplication.
    fn standin_powi(self, exponent: i32) -> f64 {
        assert_eq!(exponent, 2, "only squares have a stand-in");
        self * self
    }

    fn standin_sqrt(self) -> f64 {
        float::sqrt(self)
    }

    fn standin_round(self) -> f64 {
        float::round(self)
    }

    fn standin_floor(self) -> f64 {
        float::floor(self)
    }

    fn standin_exp(self) -> f64 {
        float::exp(self).expect("exp within its domain")
    }

    fn standin_ln(self) -> f64 {
        float::ln(self).expect("ln within its domain")
    }
}

/// `clamp` of floats and of integers.
pub trait Clamp: PartialOrd + Sized {
    fn standin_clamp(self, low: Self, high: Self) -> Self {
        float::clamp(self, low, high)
    }
}

impl Clamp for f64 {}
impl Clamp for i64 {}

/// `sum` of floats, lent or owned.
pub trait FloatSum: Iterator<Item: Borrow<f64>> + Sized {
    fn standin_sum(self) -> f64 {
        float::sum(self)
    }
}

impl<I: Iterator<Item: Borrow<f64>>> FloatSum for I {}
