//! Inputs for `predict`: training data and a point.

use crate::fits::{self, Fit};
use crate::floats::{nudged, signed_with_exponent, uniform};
use crate::lists::{alternated, shuffled};
use crate::random_fits::{self, odd_float};
use splitmix::SplitMix64;
use training::MAX_COORDINATE;

/// Points whose coordinates are all the same: in the cube, far from it, and at the limit.
const EQUAL_COORDINATES: &[f64] =
    &[0.5, 0.0, 1.0, -0.0, 2.0, -10.0, 1e10, 1e-300, MAX_COORDINATE, -MAX_COORDINATE];

/// In one coordinate, the last three refused.
const ODD_COORDINATES: &[f64] =
    &[MAX_COORDINATE, -MAX_COORDINATE, f64::NAN, f64::INFINITY, f64::NEG_INFINITY];

pub fn edges() -> Vec<Vec<u64>> {
    let lists = [
        at_rows(),
        with_points(&ordinary()),
        with_points(&fits::noises()),
        with_points(&[fits::equal_values(), fits::narrow_columns()].concat()),
        refused(),
        wrong_counts(),
    ];
    alternated(lists)
}

/// Small ones with few and with many columns, with the usual noise and with none.
pub fn ordinary() -> Vec<Fit> {
    let counts = [(1, 1), (2, 1), (5, 1), (12, 1), (1, 3), (5, 3), (12, 3), (1, 20), (4, 20)];
    let fits = counts.into_iter().map(|(rows, columns)| Fit::fixed(rows, columns));
    fits.flat_map(|fit| [fit.clone(), fit.with_noise(0.0)]).collect()
}

/// Points of the training data, where little or negative noise makes the variance 0 or less.
fn at_rows() -> Vec<Vec<u64>> {
    let counts = [(1, 1), (2, 1), (5, 1), (1, 3), (5, 3), (2, 20)];
    let noises = [-0.5, -1e-6, 0.0, 1e-16];
    let fits = counts.into_iter().flat_map(|(rows, columns)| {
        noises.map(|noise| Fit::fixed(rows, columns).with_noise(noise))
    });
    let points = |fit: Fit| {
        let rows = fit.x.chunks(fit.columns as usize);
        rows.map(|row| words(&fit, row)).collect::<Vec<_>>()
    };
    fits.flat_map(points).collect()
}

fn with_points(fits: &[Fit]) -> Vec<Vec<u64>> {
    shuffled(fits.iter().flat_map(|fit| edge_points(fit).into_iter().map(|p| words(fit, &p))))
}

/// The rows, points of equal coordinates, and points with one odd coordinate.
fn edge_points(fit: &Fit) -> Vec<Vec<f64>> {
    let columns = fit.columns as usize;
    let rows = fit.x.chunks(columns).take(2).map(<[f64]>::to_vec);
    let equal = EQUAL_COORDINATES.iter().map(|&x| vec![x; columns]);
    let beyond = [MAX_COORDINATE.next_up(), -MAX_COORDINATE.next_up()];
    let odd = ODD_COORDINATES.iter().copied().chain(beyond);
    let with_odd =
        odd.flat_map(|x| [0, columns - 1].map(|place| with_coordinate(columns, place, x)));
    rows.chain(equal).chain(with_odd).collect()
}

fn with_coordinate(columns: usize, place: usize, x: f64) -> Vec<f64> {
    let mut point = vec![0.25; columns];
    point[place] = x;
    point
}

/// Refused fits with points that are taken and that are not.
fn refused() -> Vec<Vec<u64>> {
    let counts = fits::odd_counts().into_iter().filter(|fit| fit.columns <= 200);
    let pivot = Fit::fixed(2, 1).with_equal_rows().with_noise(0.0);
    let value = Fit::fixed(3, 2).with_y(|_| f64::INFINITY);
    let fits = counts.chain([pivot, value]);
    fits.flat_map(|fit| [0.5, f64::NAN].map(|x| words(&fit, &vec![x; fit.columns as usize])))
        .collect()
}

/// Counts one off, points one coordinate off, and huge counts.
fn wrong_counts() -> Vec<Vec<u64>> {
    let fit = Fit::fixed(3, 2);
    let points = [0, 1, 3, 5].map(|length| words(&fit, &vec![0.5; length]));
    let counts = fits::wrong_counts().into_iter().map(|fit| words(&fit, &[0.5, 0.5]));
    points.into_iter().chain(counts).chain(fits::huge_counts()).collect()
}

pub fn random(rng: &mut SplitMix64) -> Vec<u64> {
    let fit = random_fits::fit(rng);
    let mut point = random_point(rng, &fit);
    if rng.below(32) == 0 {
        replace_one(rng, &mut point);
    }
    if rng.below(64) == 0 {
        point.pop();
    }
    words(&fit, &point)
}

/// A row, a point near it, one of the cube, or one of any size.
fn random_point(rng: &mut SplitMix64, fit: &Fit) -> Vec<f64> {
    let columns = fit.columns.min(40) as usize;
    let row = fit.x.chunks(columns.max(1)).find(|row| row.len() == columns);
    match (rng.below(8), row) {
        (0, Some(row)) => row.to_vec(),
        (1, Some(row)) => row.iter().map(|x| near(rng, *x)).collect(),
        (2, _) => {
            let highest = rng.pick(&[1, 5, 106]);
            (0..columns).map(|_| f64::from_bits(signed_with_exponent(rng, -10, highest))).collect()
        }
        _ => (0..columns).map(|_| uniform(rng, 0.0, 1.0)).collect(),
    }
}

fn near(rng: &mut SplitMix64, x: f64) -> f64 {
    if rng.below(2) == 0 {
        f64::from_bits(nudged(rng, x.to_bits(), 2))
    } else {
        x + uniform(rng, -1e-3, 1e-3)
    }
}

fn replace_one(rng: &mut SplitMix64, point: &mut [f64]) {
    if !point.is_empty() {
        let place = rng.below(point.len() as u64) as usize;
        point[place] = odd_float(rng, MAX_COORDINATE);
    }
}

fn words(fit: &Fit, point: &[f64]) -> Vec<u64> {
    fit.words().into_iter().chain(point.iter().map(|x| x.to_bits())).collect()
}
