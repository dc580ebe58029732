//! Words as the training data of a fit, and the refusals of document 01, section "Model".

use arithmetic::{OUT_OF_DOMAIN, Refusal};
use leaf_lines::word_to_float;
use optimizer::leaves::{self, Model};

const NO_ROWS: Refusal = Refusal(12);
const PIVOT_NOT_ABOVE_0: Refusal = Refusal(13);

pub const MAX_ROWS: usize = 100;
pub const MAX_COLUMNS: u64 = 20;
/// The largest magnitude of a coordinate.
pub const MAX_COORDINATE: f64 = 1e32;
/// 2^52, the largest magnitude of a value.
pub const MAX_VALUE: f64 = (1_u64 << 52) as f64;

pub struct Training {
    columns: u64,
    noise: f64,
    /// Row after row.
    x: Vec<f64>,
    y: Vec<f64>,
}

impl Training {
    /// Reads n, d, noise, n * d coordinates and n values, and hands back the words after them;
    /// none where there are too few words.
    pub fn read(words: &[u64]) -> Option<(Self, &[u64])> {
        let &[rows, columns, noise, ref rest @ ..] = words else { return None };
        let (x, rest) = take(rest, rows.checked_mul(columns)?)?;
        let (y, rest) = take(rest, rows)?;
        Some((Self { columns, noise: word_to_float(noise), x: floats(x), y: floats(y) }, rest))
    }

    pub fn columns(&self) -> u64 {
        self.columns
    }

    /// 11 comes before 12. The Rust answers none for 13.
    pub fn fit(&self) -> Result<Model, Refusal> {
        if !self.is_within_domain() {
            return Err(OUT_OF_DOMAIN);
        }
        if self.y.is_empty() {
            return Err(NO_ROWS);
        }
        let rows: Vec<_> = self.x.chunks(self.columns as usize).map(<[f64]>::to_vec).collect();
        leaves::fit_gp(&rows, &self.y, self.noise).ok_or(PIVOT_NOT_ABOVE_0)
    }

    /// Any noise is taken.
    fn is_within_domain(&self) -> bool {
        self.y.len() <= MAX_ROWS
            && (1..=MAX_COLUMNS).contains(&self.columns)
            && is_point(&self.x)
            && self.y.iter().all(|y| y.abs() <= MAX_VALUE)
    }
}

/// Whether all coordinates are numbers of at most the largest magnitude.
pub fn is_point(x: &[f64]) -> bool {
    x.iter().all(|x| x.abs() <= MAX_COORDINATE)
}

pub fn floats(words: &[u64]) -> Vec<f64> {
    words.iter().map(|&word| word_to_float(word)).collect()
}

/// The first `count` words and the others; none where there are fewer.
pub fn take(words: &[u64], count: u64) -> Option<(&[u64], &[u64])> {
    words.split_at_checked(usize::try_from(count).ok()?)
}
