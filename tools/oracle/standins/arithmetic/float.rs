//! Sums, least and greatest values, sqrt, exp, ln, round and floor. Every operation rounds once.
//! The digits of the constants are document 01's.

#![allow(clippy::approx_constant)]

use crate::{OUT_OF_DOMAIN, Refusal};
use std::borrow::Borrow;

/// H and L of document 01: ln 2 as the sum of a short high part and a low part.
const LN_2_HIGH: f64 = f64::from_bits(0x3fe6_2e42_fee0_0000);
const LN_2_LOW: f64 = f64::from_bits(0x3dea_39ef_3579_3c76);
/// log2(e), the inverse of ln 2.
const LOG2_E: f64 = 1.4426950408889634;
/// Mantissas above this float next to the root of 2 are halved by ln.
const SQRT_2: f64 = 1.4142135623730951;

/// Left to right from +0.
pub fn sum<T: Borrow<f64>>(values: impl Iterator<Item = T>) -> f64 {
    values.fold(0.0, |total, value| total + value.borrow())
}

/// The sum of products, left to right from +0.
pub fn dot(a: &[f64], b: &[f64]) -> f64 {
    assert_eq!(a.len(), b.len(), "lists of unequal length");
    sum(a.iter().zip(b).map(|(x, y)| x * y))
}

/// `value` if it is above `floor`, else `floor`: a NaN gives `floor`.
pub fn max(value: f64, floor: f64) -> f64 {
    if value > floor { value } else { floor }
}

/// The earlier value, unless the later one is less.
pub fn min(earlier: f64, later: f64) -> f64 {
    if later < earlier { later } else { earlier }
}

/// The nearest end for a value outside low..high; a NaN and a zero of either sign stay.
pub fn clamp<T: PartialOrd>(value: T, low: T, high: T) -> T {
    if value < low {
        low
    } else if value > high {
        high
    } else {
        value
    }
}

/// Correctly rounded: IEEE 754's own operation, done by the hardware.
pub fn sqrt(x: f64) -> f64 {
    x.sqrt()
}

/// To the nearest whole number, halves away from 0; a zero keeps the argument's sign.
pub fn round(x: f64) -> f64 {
    x.round()
}

/// The largest whole number not above `x`.
pub fn floor(x: f64) -> f64 {
    x.floor()
}

pub fn exp(x: f64) -> Result<f64, Refusal> {
    if x.is_nan() {
        return Ok(f64::NAN);
    }
    if x < -708.0 {
        return Ok(0.0);
    }
    if x > 709.0 {
        return Err(OUT_OF_DOMAIN);
    }
    let k = round(x * LOG2_E);
    let r = (x - k * LN_2_HIGH) - k * LN_2_LOW;
    Ok(exp_polynomial(r) * power_of_two(k as i64))
}

/// 1 + r/1! + ... + r^13/13!, from the inside out. The compiler unrolls this form of range only.
fn exp_polynomial(r: f64) -> f64 {
    let mut p = 1.0;
    for i in (1..14).rev() {
        p = 1.0 + (r * p) / f64::from(i);
    }
    p
}

/// 2^k, exact for k from -1022 to 1023.
fn power_of_two(k: i64) -> f64 {
    f64::from_bits(((k + 1023) as u64) << 52)
}

pub fn ln(x: f64) -> Result<f64, Refusal> {
    if !x.is_normal() || x < 0.0 {
        return Err(OUT_OF_DOMAIN);
    }
    let (m, e) = ln_reduced(x);
    let s = (m - 1.0) / (m + 1.0);
    let q = ln_series(s * s);
    Ok(e * LN_2_HIGH + ((2.0 * s) * q + e * LN_2_LOW))
}

/// m and e with x = m * 2^e, m above half the root of 2 and not above the root.
fn ln_reduced(x: f64) -> (f64, f64) {
    let bits = x.to_bits();
    let m = f64::from_bits(bits & ((1 << 52) - 1) | 1023 << 52);
    let e = (bits >> 52) as f64 - 1023.0;
    if m > SQRT_2 { (m / 2.0, e + 1.0) } else { (m, e) }
}

/// 1 + z/3 + z^2/5 + ... + z^11/23, from the inside out.
fn ln_series(z: f64) -> f64 {
    let mut q = 1.0 / 23.0;
    for d in (1..=21).rev().step_by(2) {
        q = 1.0 / f64::from(d) + z * q;
    }
    q
}
