//! Random training data: mostly small, some of it refused.

use crate::fits::{Fit, NOISE, NOISES};
use crate::floats::{nudged, signed_with_exponent, uniform, with_exponent};
use splitmix::SplitMix64;
use training::{MAX_COORDINATE, MAX_VALUE};

/// What no list may have.
const REFUSED: &[f64] = &[f64::NAN, f64::INFINITY, f64::NEG_INFINITY, f64::MAX];

pub fn fit(rng: &mut SplitMix64) -> Fit {
    let (rows, columns) = counts(rng);
    let mut fit = Fit::ordinary(rng, rows, columns);
    change_coordinates(rng, &mut fit);
    change_values(rng, &mut fit);
    fit.noise = noise(rng);
    if rng.below(16) == 0 {
        damage(rng, &mut fit);
    }
    fit
}

/// Large ones are rare, as the answers grow by the square of the rows.
fn counts(rng: &mut SplitMix64) -> (u64, u64) {
    match rng.below(1024) {
        0 => (rng.below(102), rng.below(22)),
        1..=32 => (rng.below(31), rng.below(22)),
        _ => (1 + rng.below(12), 1 + rng.below(4)),
    }
}

/// Most stay; the others lie on a grid, are equal rows, or have other sizes.
fn change_coordinates(rng: &mut SplitMix64, fit: &mut Fit) {
    match rng.below(8) {
        0 => fit.x.iter_mut().for_each(|x| *x = (*x * 4.0).floor() / 4.0),
        1 if fit.rows > 0 => *fit = fit.clone().with_equal_rows(),
        2 => {
            let highest = rng.pick(&[0, 10, 105]);
            let numbers = fit.x.iter_mut();
            numbers.for_each(|x| *x = f64::from_bits(signed_with_exponent(rng, -30, highest)));
        }
        3 => {
            let size = rng.pick(&[1e-9, 1e-3, 1e3, 1e32]);
            fit.x.iter_mut().for_each(|x| *x *= size);
        }
        _ => {}
    }
}

/// Most stay; the others are whole numbers, equal, or of other sizes.
fn change_values(rng: &mut SplitMix64, fit: &mut Fit) {
    match rng.below(8) {
        0 => fit.y.iter_mut().for_each(|y| *y = (*y / 4.0).round()),
        1 => {
            let value = f64::from_bits(signed_with_exponent(rng, -40, 51));
            fit.y.fill(value);
        }
        2 => {
            let numbers = fit.y.iter_mut();
            numbers.for_each(|y| *y = f64::from_bits(signed_with_exponent(rng, -40, 51)));
        }
        3 => {
            let size = rng.pick(&[1e-12, 1e-10, 1e6]);
            fit.y.iter_mut().for_each(|y| *y = 1.0 + *y * size);
        }
        _ => {}
    }
}

fn noise(rng: &mut SplitMix64) -> f64 {
    match rng.below(16) {
        0 => rng.pick(NOISES),
        1 => f64::from_bits(signed_with_exponent(rng, -60, 20)),
        2 => f64::from_bits(rng.next_word()),
        3 => uniform(rng, -1.0, 1.0),
        4..=6 => f64::from_bits(with_exponent(rng, -60, 10)),
        7 | 8 => 0.0,
        _ => NOISE,
    }
}

/// A coordinate or a value about the limit or beyond, or a count that is one off.
fn damage(rng: &mut SplitMix64, fit: &mut Fit) {
    match rng.below(4) {
        0 => fit.rows = nudged(rng, fit.rows, 1),
        1 => fit.columns = nudged(rng, fit.columns, 1),
        2 => replace_one(rng, &mut fit.x, MAX_COORDINATE),
        _ => replace_one(rng, &mut fit.y, MAX_VALUE),
    }
}

fn replace_one(rng: &mut SplitMix64, list: &mut [f64], limit: f64) {
    if list.is_empty() {
        return;
    }
    let place = rng.below(list.len() as u64) as usize;
    list[place] = odd_float(rng, limit);
}

/// About the limit, or refused.
pub fn odd_float(rng: &mut SplitMix64, limit: f64) -> f64 {
    if rng.below(2) == 0 {
        return rng.pick(REFUSED);
    }
    let signed = limit * rng.pick(&[1.0, -1.0]);
    f64::from_bits(nudged(rng, signed.to_bits(), 1))
}
