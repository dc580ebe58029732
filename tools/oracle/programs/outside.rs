//! `outside < LINES`: how many lines of `sample_random` draw a float below low or above high in the Rust as it was,
//! without the clamp, for each way of drawing one. Other lines are left out.

use leaf_lines::parse_words;
use optimizer::distribution::{Distribution, FloatDistribution};
use optimizer::leaves::sample_random_unclamped;
use optimizer::param::ParamValue;
use std::io::{self, BufRead};

const NAME: &[u8] = b"sample_random ";

/// The ways of drawing a float. The Rust clamps the second.
const BRANCHES: [&str; 4] = ["log scale", "log scale, stepped", "linear, stepped", "linear"];

#[derive(Clone, Copy, Default)]
struct Count {
    drawn: u64,
    below: u64,
    above: u64,
}

impl Count {
    fn add(&mut self, value: f64, d: &FloatDistribution) {
        self.drawn += 1;
        self.below += u64::from(value < d.low);
        self.above += u64::from(value > d.high);
    }

    fn plus(self, other: Self) -> Self {
        Self {
            drawn: self.drawn + other.drawn,
            below: self.below + other.below,
            above: self.above + other.above,
        }
    }

    fn write(&self, name: &str) {
        println!(
            "{name}: {} floats drawn, {} below low, {} above high",
            self.drawn, self.below, self.above
        );
    }
}

fn branch(d: &FloatDistribution) -> usize {
    match (d.log_scale, d.step) {
        (true, None) => 0,
        (true, Some(_)) => 1,
        (false, Some(_)) => 2,
        (false, None) => 3,
    }
}

/// The distribution and the float drawn; none for a line that draws none.
fn draw(line: &[u8]) -> Option<(FloatDistribution, f64)> {
    let words = parse_words(line.strip_prefix(NAME)?)?;
    let [state, words @ ..]: [u64; 7] = words.try_into().ok()?;
    let d = records::distribution(&words).filter(|_| state != 0)?;
    let value = sample_random_unclamped(&mut fastrand::Rng::with_seed(state), &d);
    match (d, value) {
        (Distribution::Float(d), ParamValue::Float(value)) => Some((d, value)),
        _ => None,
    }
}

fn main() -> io::Result<()> {
    let mut counts = [Count::default(); 4];
    for line in io::stdin().lock().split(b'\n') {
        if let Some((d, value)) = draw(&line?) {
            counts[branch(&d)].add(value, &d);
        }
    }
    let all = counts.into_iter().reduce(Count::plus).expect("four branches");
    all.write("all");
    BRANCHES.iter().zip(&counts).for_each(|(name, count)| count.write(name));
    Ok(())
}
