//! The generator: one word that is never zero, Marsaglia's 64-bit xorshift.

use crate::{OUT_OF_DOMAIN, Refusal};

/// What a draw answers.
#[derive(Clone, Copy, Debug)]
pub struct Draw<T> {
    pub value: T,
    /// How many words the draw took.
    pub drawn: u64,
    /// The generator's word after the draw.
    pub next: u64,
}

/// The largest magnitude of an end of a range of whole numbers.
const MAX_END: u64 = 1 << 53;

/// Draws a word: the new state itself.
pub fn word(state: u64) -> Result<Draw<u64>, Refusal> {
    if state == 0 {
        return Err(OUT_OF_DOMAIN);
    }
    let mut w = state;
    w ^= w << 13;
    w ^= w >> 7;
    w ^= w << 17;
    Ok(Draw { value: w, drawn: 1, next: w })
}

/// Draws a float from 0 up to, not including, 1.
pub fn unit(state: u64) -> Result<Draw<f64>, Refusal> {
    let draw = word(state)?;
    let value = (draw.value >> 12) as f64 / (1_u64 << 52) as f64;
    Ok(Draw { value, drawn: draw.drawn, next: draw.next })
}

/// Draws a whole number from low to high, both included, by remainder.
pub fn whole(state: u64, low: i64, high: i64) -> Result<Draw<i64>, Refusal> {
    if low > high || low.unsigned_abs() > MAX_END || high.unsigned_abs() > MAX_END {
        return Err(OUT_OF_DOMAIN);
    }
    let draw = word(state)?;
    let width = (high - low + 1) as u64;
    let value = low + (draw.value % width) as i64;
    Ok(Draw { value, drawn: draw.drawn, next: draw.next })
}
