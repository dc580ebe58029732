//! Inputs for `matern52`: two points, lengthscales and the signal variance.

use crate::floats::{nudged, signed_with_exponent, uniform};
use crate::lists::shuffled;
use splitmix::SplitMix64;

/// Numbers of coordinates: those of a model, and some beyond.
const COUNTS: &[u64] = &[1, 3, 20, 2, 5, 19, 21, 40, 60];

/// About where exp's argument comes to -708, for a lengthscale of 1.
const ZERO_DISTANCE: f64 = 708.0 / 2.236_213_562_373_095;

const DISTANCES: &[f64] =
    &[0.0, -0.0, 1e-9, 0.5, -0.5, 1.0, 300.0, 400.0, 1e32, 1e160, f64::INFINITY, f64::NAN];

const LENGTHSCALES: &[f64] =
    &[1.0, 0.01, 0.3, 0.0, -0.0, -1.0, 1e-300, 1e300, f64::INFINITY, f64::NAN];

const SIGNALS: &[f64] = &[1.0, 0.0, -0.0, -1.0, 2.5, 1e300, f64::INFINITY, f64::NAN];

/// Coordinates and lengthscales that change the whole answer.
const ODD_FLOATS: &[f64] =
    &[0.0, -0.0, -1.0, 1e32, -1e200, 1e-310, f64::INFINITY, f64::NEG_INFINITY, f64::NAN];

/// The words of a call in their places.
#[derive(Clone)]
struct Call {
    count: u64,
    points: [Vec<f64>; 2],
    lengthscales: Vec<f64>,
    signal: f64,
}

impl Call {
    /// Points in the unit cube with lengthscales of their kind.
    fn ordinary(rng: &mut SplitMix64, count: u64) -> Self {
        let mut list = |low, high| (0..count).map(|_| uniform(rng, low, high)).collect();
        let points = [list(0.0, 1.0), list(0.0, 1.0)];
        Self { count, points, lengthscales: list(0.01, 0.5), signal: 1.0 }
    }

    fn of_one(x1: f64, x2: f64, lengthscale: f64, signal: f64) -> Self {
        Self { count: 1, points: [vec![x1], vec![x2]], lengthscales: vec![lengthscale], signal }
    }

    fn with_equal_points(mut self) -> Self {
        self.points[1] = self.points[0].clone();
        self
    }

    fn list(&mut self, number: u64) -> &mut Vec<f64> {
        match number {
            0 | 1 => &mut self.points[number as usize],
            _ => &mut self.lengthscales,
        }
    }

    fn words(&self) -> Vec<u64> {
        let [x1, x2] = &self.points;
        let floats = [&x1[..], x2, &self.lengthscales, &[self.signal]].concat();
        [self.count].into_iter().chain(floats.into_iter().map(f64::to_bits)).collect()
    }
}

pub fn edges() -> Vec<Vec<u64>> {
    let calls = [of_none(), of_each_count()].concat();
    let others = [of_one(), at_zero_distance(), with_odd_floats()].concat();
    let words = calls.iter().chain(shuffled(&others)).map(Call::words);
    wrong_counts().into_iter().chain(words).collect()
}

fn of_none() -> Vec<Call> {
    let none = Call::ordinary(&mut SplitMix64::for_line(0, 0), 0);
    SIGNALS.iter().map(|&signal| Call { signal, ..none.clone() }).collect()
}

/// For each number of coordinates equal points, and two others with each signal variance.
fn of_each_count() -> Vec<Call> {
    let of_count = |&count: &u64| {
        let ordinary = Call::ordinary(&mut SplitMix64::for_line(0, count), count);
        let signals = if count <= 20 { SIGNALS } else { &SIGNALS[..2] };
        let of_signals = signals.iter().map(|&signal| Call { signal, ..ordinary.clone() });
        of_signals.chain([ordinary.clone().with_equal_points()]).collect::<Vec<_>>()
    };
    COUNTS.iter().flat_map(of_count).collect()
}

fn of_one() -> Vec<Call> {
    let distances = DISTANCES.iter().flat_map(|&distance| [(0.0, distance), (distance, distance)]);
    let scaled = distances.flat_map(|(x1, x2)| LENGTHSCALES.iter().map(move |&l| (x1, x2, l)));
    let with_signals = |(x1, x2, l)| [1.0, -2.5].map(|signal| Call::of_one(x1, x2, l, signal));
    scaled.flat_map(with_signals).collect()
}

/// Floats about where the exponential becomes 0.
fn at_zero_distance() -> Vec<Call> {
    let first = ZERO_DISTANCE.to_bits() - 8;
    let distances = (first..first + 16).map(f64::from_bits);
    distances
        .flat_map(|x| [Call::of_one(x, 0.0, 1.0, 1.0), Call::of_one(0.0, x, 1.0, -2.5)])
        .collect()
}

/// One odd float in each list, first and last.
fn with_odd_floats() -> Vec<Call> {
    let ordinary = Call::ordinary(&mut SplitMix64::for_line(0, 3), 3);
    let places = (0..3).flat_map(|list| [0, 2].map(|place| (list, place)));
    let replaced = |(list, place)| {
        let ordinary = ordinary.clone();
        ODD_FLOATS.iter().map(move |&x| {
            let mut call = ordinary.clone();
            call.list(list)[place] = x;
            call
        })
    };
    places.flat_map(replaced).collect()
}

/// Counts one off and huge ones, some of which would fit if their product wrapped around.
fn wrong_counts() -> Vec<Vec<u64>> {
    let one_off = [1, 3].into_iter().flat_map(|count| {
        let call = Call::ordinary(&mut SplitMix64::for_line(0, count), count);
        [count - 1, count + 1].map(|count| Call { count, ..call.clone() }.words())
    });
    let inverse_of_3 = 0xaaaa_aaaa_aaaa_aaab_u64;
    let wrapping = (1..=4_u64).map(|rest| {
        let mut words = vec![0; rest as usize + 2];
        words[0] = inverse_of_3.wrapping_mul(rest);
        words
    });
    let huge = [u64::MAX, 1 << 63, 1 << 62, 1 << 32].map(|count| vec![count, 0]);
    one_off.chain(wrapping.filter(|words| words[0] > 60)).chain(huge).collect()
}

pub fn random(rng: &mut SplitMix64) -> Vec<u64> {
    let count = match rng.below(16) {
        0 => rng.below(61),
        1 => rng.pick(COUNTS),
        _ => rng.below(6),
    };
    let mut call = Call::ordinary(rng, count);
    match rng.below(8) {
        0 => call = call.with_equal_points(),
        1 => spread(rng, &mut call),
        2 => call = near_zero_distance(rng),
        3 => replace_one(rng, &mut call),
        _ => {}
    }
    call.signal = random_signal(rng);
    if rng.below(64) == 0 {
        call.count = nudged(rng, call.count, 1);
    }
    call.words()
}

/// Coordinates and lengthscales of all sizes.
fn spread(rng: &mut SplitMix64, call: &mut Call) {
    let size = rng.pick(&[10, 100, 600]);
    for list in 0..3 {
        let floats = call.list(list).iter_mut();
        floats.for_each(|x| *x = f64::from_bits(signed_with_exponent(rng, -size, size)));
    }
}

fn near_zero_distance(rng: &mut SplitMix64) -> Call {
    let lengthscale = uniform(rng, 0.01, 2.0);
    let distance = nudged(rng, (ZERO_DISTANCE * lengthscale).to_bits(), 1 << 10);
    Call::of_one(f64::from_bits(distance), 0.0, lengthscale, 1.0)
}

/// One float of a list by an odd one; nothing where there is none.
fn replace_one(rng: &mut SplitMix64, call: &mut Call) {
    let (place, odd) = (rng.below(call.count.max(1)) as usize, rng.pick(ODD_FLOATS));
    if let Some(x) = call.list(rng.below(3)).get_mut(place) {
        *x = odd;
    }
}

fn random_signal(rng: &mut SplitMix64) -> f64 {
    match rng.below(8) {
        0 => rng.pick(SIGNALS),
        1 => f64::from_bits(signed_with_exponent(rng, -60, 60)),
        2 => f64::from_bits(rng.next_word()),
        _ => 1.0,
    }
}
