//! Stands in for the crate `fastrand`: document 01's generator.

use arithmetic::Refusal;
use arithmetic::generator::{self, Draw};
use std::ops::{Range, RangeInclusive};

pub struct Rng {
    state: u64,
    drawn: u64,
}

impl Rng {
    /// Document 01 has no default seed.
    #[allow(clippy::new_without_default)]
    pub fn new() -> Self {
        panic!("a sampler is made with a seed");
    }

    pub fn with_seed(seed: u64) -> Self {
        Self { state: seed, drawn: 0 }
    }

    /// The generator's word. The crate `fastrand` has no such method.
    pub fn state(&self) -> u64 {
        self.state
    }

    /// How many words were drawn so far. The crate `fastrand` has no such method.
    pub fn drawn(&self) -> u64 {
        self.drawn
    }

    pub fn f64(&mut self) -> f64 {
        self.draw(generator::unit)
    }

    pub fn i64(&mut self, range: RangeInclusive<i64>) -> i64 {
        self.draw(|state| generator::whole(state, *range.start(), *range.end()))
    }

    pub fn usize(&mut self, range: Range<usize>) -> usize {
        let low = i64::try_from(range.start).expect("a low end that fits");
        let end = i64::try_from(range.end).expect("a high end that fits");
        self.i64(low..=end - 1) as usize
    }

    fn draw<T>(&mut self, draw: impl FnOnce(u64) -> Result<Draw<T>, Refusal>) -> T {
        let answer = draw(self.state).expect("a draw within its domain");
        self.state = answer.next;
        self.drawn += answer.drawn;
        answer.value
    }
}
