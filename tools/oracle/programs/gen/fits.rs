//! The training data of a fit, and inputs for `fit_gp`.

use crate::floats::{around, uniform};
use crate::lists::alternated;
use crate::random_fits;
use splitmix::SplitMix64;
use training::{MAX_COLUMNS, MAX_COORDINATE, MAX_VALUE};

/// The default.
pub const NOISE: f64 = 1e-6;

/// All kinds of noise: none, too little to change a 1, ordinary, large, negative and odd.
pub const NOISES: &[f64] = &[
    0.0,
    -0.0,
    NOISE,
    1e-3,
    1.0,
    1e6,
    1e-16,
    f64::EPSILON,
    -1e-6,
    -0.5,
    -1.0,
    -2.0,
    f64::from_bits(1),
    f64::MAX,
    f64::INFINITY,
    f64::NEG_INFINITY,
    f64::NAN,
];

/// Coordinates and values that are not ordinary but taken.
const ODD_FLOATS: &[f64] = &[0.0, -0.0, f64::from_bits(1), -1e-300, 1e10];

/// What a fit takes. The counts are those of the lists unless they are made wrong.
#[derive(Clone)]
pub struct Fit {
    pub rows: u64,
    pub columns: u64,
    pub noise: f64,
    /// Row after row.
    pub x: Vec<f64>,
    pub y: Vec<f64>,
}

impl Fit {
    /// Coordinates from 0 to 1 and values of their size.
    pub fn ordinary(rng: &mut SplitMix64, rows: u64, columns: u64) -> Self {
        let mut list = |length, low, high| (0..length).map(|_| uniform(rng, low, high)).collect();
        let (x, y) = (list(rows * columns, 0.0, 1.0), list(rows, -10.0, 10.0));
        Self { rows, columns, noise: NOISE, x, y }
    }

    /// An ordinary one that is always the same.
    pub fn fixed(rows: u64, columns: u64) -> Self {
        Self::ordinary(&mut SplitMix64::for_line(rows, columns), rows, columns)
    }

    pub fn with_noise(mut self, noise: f64) -> Self {
        self.noise = noise;
        self
    }

    pub fn with_y(mut self, y: impl Fn(usize) -> f64) -> Self {
        self.y = (0..self.y.len()).map(y).collect();
        self
    }

    /// Each coordinate by its row, its column and its present value.
    pub fn with_x(mut self, x: impl Fn(usize, usize, f64) -> f64) -> Self {
        let columns = self.columns as usize;
        let places = self.x.iter_mut().enumerate();
        places.for_each(|(i, place)| *place = x(i / columns, i % columns, *place));
        self
    }

    /// All rows equal to the first.
    pub fn with_equal_rows(mut self) -> Self {
        self.x = self.x[..self.columns as usize].repeat(self.y.len());
        self
    }

    pub fn words(&self) -> Vec<u64> {
        let floats = [&[self.noise], &self.x[..], &self.y].concat();
        [self.rows, self.columns].into_iter().chain(floats.into_iter().map(f64::to_bits)).collect()
    }
}

/// The large ones first; of the others some of each kind come early.
pub fn edges() -> Vec<Vec<u64>> {
    let lists = [
        wrong_counts(),
        odd_counts(),
        odd_coordinates(),
        odd_values(),
        noises(),
        equal_values(),
        narrow_columns(),
        far_apart(),
        each_column_count(),
    ];
    [all_words(&sizes()), alternated(lists.map(|fits| all_words(&fits))), huge_counts()].concat()
}

fn all_words(fits: &[Fit]) -> Vec<Vec<u64>> {
    fits.iter().map(Fit::words).collect()
}

pub fn random(rng: &mut SplitMix64) -> Vec<u64> {
    random_fits::fit(rng).words()
}

/// From the least to the largest.
fn sizes() -> Vec<Fit> {
    let rows = [1, 2, 50, 99, 100];
    rows.into_iter().flat_map(|rows| [1, 3, 20].map(|columns| Fit::fixed(rows, columns))).collect()
}

fn each_column_count() -> Vec<Fit> {
    (1..=MAX_COLUMNS).map(|columns| Fit::fixed(3, columns)).collect()
}

/// All coordinates and all values at their limits.
fn far_apart() -> Vec<Fit> {
    let far = |row, column, _| alternating(row + column, MAX_COORDINATE);
    let high = |row| alternating(row, MAX_VALUE);
    let fits = [Fit::fixed(6, 1), Fit::fixed(5, 3)];
    let both = |fit: Fit| {
        [fit.clone().with_x(far), fit.clone().with_y(high), fit.with_x(far).with_y(high)]
    };
    fits.into_iter().flat_map(both).collect()
}

fn alternating(number: usize, x: f64) -> f64 {
    if number.is_multiple_of(2) { x } else { -x }
}

/// No rows, no columns, and more than there may be, some with a NaN as well.
pub fn odd_counts() -> Vec<Fit> {
    let none = [0, 1, 3, 20, 21, 1 << 32, u64::MAX].map(|columns| Fit {
        rows: 0,
        columns,
        noise: NOISE,
        x: vec![],
        y: vec![],
    });
    let others =
        [(1, 0), (3, 0), (101, 0), (1, 21), (2, 21), (101, 1), (101, 3), (1, 200), (200, 1)]
            .map(|(rows, columns)| Fit::fixed(rows, columns));
    let with_nan = [Fit::fixed(1, 0), Fit::fixed(101, 1), Fit::fixed(1, 21)]
        .map(|fit| fit.with_y(|_| f64::NAN).with_noise(f64::NAN));
    none.into_iter().chain(others).chain(with_nan).collect()
}

/// One coordinate at and beyond the limit, in the first, a middle and the last place.
fn odd_coordinates() -> Vec<Fit> {
    replaced(MAX_COORDINATE, [0, 3, 5], |fit, place, number| fit.x[place] = number)
}

/// One value at and beyond the limit, in the first, a middle and the last place.
fn odd_values() -> Vec<Fit> {
    replaced(MAX_VALUE, [0, 1, 2], |fit, place, number| fit.y[place] = number)
}

/// A good fit with one number replaced by each odd one about the limit, at each of the places.
fn replaced(limit: f64, places: [usize; 3], put: fn(&mut Fit, usize, f64)) -> Vec<Fit> {
    let with = |place, number| {
        let mut fit = Fit::fixed(3, 2);
        put(&mut fit, place, number);
        fit
    };
    odd_floats(limit).iter().flat_map(|&number| places.map(|place| with(place, number))).collect()
}

/// Both sides of a limit, numbers that are no numbers, and some that are taken.
fn odd_floats(limit: f64) -> Vec<f64> {
    let limits = [limit, -limit].into_iter().flat_map(around);
    let refused = [f64::NAN, f64::INFINITY, f64::NEG_INFINITY, f64::MAX];
    limits.chain(refused).chain(ODD_FLOATS.iter().copied()).collect()
}

/// Every noise with one row, with equal and nearly equal rows, and with others.
pub fn noises() -> Vec<Fit> {
    let of_noise = |&noise: &f64| {
        let nearly_equal = Fit::fixed(4, 2).with_x(|_, column, x| column as f64 + 1e-9 * x);
        let fits = [
            Fit::fixed(2, 1).with_equal_rows(),
            Fit::fixed(5, 3).with_equal_rows(),
            Fit::fixed(1, 2),
            nearly_equal,
            Fit::fixed(6, 2),
        ];
        fits.map(|fit| fit.with_noise(noise))
    };
    NOISES.iter().flat_map(of_noise).collect()
}

/// Values that are equal, of both zeros, about as far apart as the floor, and least in two places.
pub fn equal_values() -> Vec<Fit> {
    let equal = [0.0, -0.0, 1.0, 0.1, MAX_VALUE, -1e-300].into_iter().flat_map(|y| {
        [(1, 1), (2, 1), (3, 3), (10, 2)]
            .map(|(rows, columns)| Fit::fixed(rows, columns).with_y(|_| y))
    });
    let zeros = [0.0, -0.0].map(|first| Fit::fixed(4, 1).with_y(|row| alternating(row, first)));
    let near_floor = around(1e-10 * 2_f64.sqrt())
        .map(|distance| Fit::fixed(2, 2).with_y(|row| row as f64 * distance));
    let repeated = [2, 3].map(|period| Fit::fixed(6, 2).with_y(|row| (row % period) as f64));
    equal.chain(zeros).chain(near_floor).chain(repeated).collect()
}

/// A column that is constant, or about as wide as the floor.
pub fn narrow_columns() -> Vec<Fit> {
    let constant = (0..3).flat_map(|narrow| {
        [0.0, 0.5, 0.1].map(|x| {
            Fit::fixed(4, 3).with_x(|_, column, old| if column == narrow { x } else { old })
        })
    });
    let near_floor = [0.0, 0.5].into_iter().flat_map(|middle| {
        around(0.01)
            .map(|half| Fit::fixed(2, 1).with_x(|row, _, _| middle + alternating(row, half)))
    });
    constant.chain(near_floor).collect()
}

/// Counts one off.
pub fn wrong_counts() -> Vec<Fit> {
    let fit = Fit::fixed(3, 2);
    [(2, 2), (4, 2), (3, 1), (3, 3), (2, 3)]
        .map(|(rows, columns)| Fit { rows, columns, ..fit.clone() })
        .to_vec()
}

/// A few words whose counts would fit them if their product wrapped around, for all leaves of a fit.
pub fn huge_counts() -> Vec<Vec<u64>> {
    let counts = [
        (5, u64::MAX),
        (1 << 63, 1),
        (1 << 62, 3),
        (1 << 32, u64::from(u32::MAX)),
        (u64::MAX, u64::MAX),
    ];
    let lengths = [3, 4, 5, 6];
    counts
        .into_iter()
        .flat_map(|(rows, columns)| lengths.map(|length| padded(&[rows, columns], length)))
        .collect()
}

/// The words and ones after them up to the length.
fn padded(words: &[u64], length: usize) -> Vec<u64> {
    words.iter().copied().chain(std::iter::repeat(1)).take(length).collect()
}
