//! Inputs about the clamp of `sample_random`: floats that are drawn outside low..high without it, or at an end.

use crate::distributions::{float, int, is_well_formed};
use crate::draws::{state_before, word_random};
use crate::floats::with_exponent;
use crate::random_distributions::random_float_ends;
use crate::random_values::width;
use crate::run_models::TRIALS;
use crate::runs::{Run, Settings};
use records::{DistributionWords, LEAST_FLOAT, MAX_FLOAT};
use splitmix::SplitMix64;

/// Words to draw as the unit float 0 and as the greatest one.
const UNIT_0: u64 = 1;
const LAST_UNIT: u64 = u64::MAX;

/// Words that are drawn as the same unit float.
const WORDS_OF_UNIT: u64 = 1 << 12;

/// A generator word and low, high, log and step of a distribution whose float is drawn outside: the first five on
/// log scale below or above an end, two powers of two of one point, and the last of 36 steps.
fn table() -> Vec<(u64, DistributionWords)> {
    let log = |low, high| float(low, high, true, None);
    let (first, last) = (state_before(UNIT_0), state_before(LAST_UNIT));
    vec![
        (last, log(10.0, 100.0)),
        (last, log(5.0, 10.0)),
        (first, log(1e-4, 0.1)),
        (first, log(20.0, 80.0)),
        (first, log(0.1, 0.1)),
        (first, log(MAX_FLOAT, MAX_FLOAT)),
        (first, log(LEAST_FLOAT, LEAST_FLOAT)),
        (0x1b, float(0.0, 0.35, false, Some(0.01))),
    ]
}

/// The table as lines of `sample_random`.
pub fn table_lines() -> Vec<Vec<u64>> {
    table().into_iter().map(|(state, d)| line(state, &d)).collect()
}

/// The table as runs whose last call answers the float: in discovery, as a new trial's first value, as a stored value
/// while an int is asked, and past the last dimension. The last run's second trial asks an int and gets the first
/// dimension's float.
pub fn table_runs() -> Vec<Run> {
    let [first, second, _] = TRIALS;
    let tens = int(0, 9, false, None);
    let runs = table().into_iter().flat_map(|(state, d)| {
        [
            after(state, 0).ask(first, &d),
            after(state, 1).ask(first, &d).ask(second, &d),
            after(state, 3).ask_each(first, &[tens, d]).ask_each(second, &[tens, tens]),
            after(state, 2).ask(first, &tens).ask_each(second, &[tens, d]),
        ]
    });
    let asked_as_int = after(state_before(UNIT_0), 1);
    let asked_as_int = asked_as_int.ask(first, &float(1e-4, 0.1, true, None)).ask(second, &tens);
    runs.chain([asked_as_int]).collect()
}

/// No calls yet, with the seed that becomes this word after so many words are drawn.
fn after(state: u64, drawn: u64) -> Run {
    let seed = seed_before(state, drawn);
    Run::new(Settings { startup: 10, candidates: 0, noise: 0, seed, slots: 1 })
}

fn seed_before(state: u64, drawn: u64) -> u64 {
    (0..drawn).fold(state, |word, _| state_before(word))
}

fn line(state: u64, words: &DistributionWords) -> Vec<u64> {
    [&[state], &words[..]].concat()
}

/// A word to draw that leaves the last remainder, by a stepped range that is not on log scale.
fn last_step(words: &DistributionWords, multiple: u64) -> u64 {
    multiple * width(words).expect("a number of steps") - 1
}

/// A draw of `sample_random` that often lies outside without the clamp.
pub fn random(rng: &mut SplitMix64) -> Vec<u64> {
    let (d, drawn) = match rng.below(8) {
        0..=3 => (log_float(rng), unit_word(rng)),
        4..=6 => {
            let d = overshooting(rng);
            let multiple = 1 + rng.sized(40);
            (d, last_step(&d, multiple).max(1))
        }
        _ => (linear_float(rng), unit_word(rng)),
    };
    line(state_before(drawn), &d)
}

/// A float's distribution whose draws often lie outside without the clamp, whatever the generator's word is.
pub fn distribution(rng: &mut SplitMix64) -> DistributionWords {
    if rng.below(4) == 0 { overshooting(rng) } else { log_float(rng) }
}

/// Now and then a seed that leads to a unit float at an end, a few draws later; else this one.
pub fn seed(word: u64) -> u64 {
    let end = match word % 16 {
        0 => UNIT_0,
        1 => LAST_UNIT,
        _ => return word,
    };
    seed_before(end, 1 + word / 16 % 8)
}

/// Drawn as a unit float at an end or near it, or anywhere.
fn unit_word(rng: &mut SplitMix64) -> u64 {
    let within = rng.below(WORDS_OF_UNIT - 1);
    let distance = rng.sized(12) * WORDS_OF_UNIT;
    match rng.below(8) {
        0 | 1 => 1 + within,
        2 | 3 => u64::MAX - within,
        4 => 1 + within + distance,
        5 => u64::MAX - within - distance,
        _ => word_random(rng).max(1),
    }
}

/// On log scale: of one point, a few last places long, or as people write them. A quarter has a step.
fn log_float(rng: &mut SplitMix64) -> DistributionWords {
    loop {
        let low = log_end(rng);
        let high = match rng.below(8) {
            0 | 1 => low,
            2 | 3 => f64::from_bits(low.to_bits() + rng.sized(6)),
            4 => low * rng.pick(&[2.0, 10.0, 100.0, 1000.0]),
            _ => log_end(rng),
        };
        let (low, high) = (low.min(high), low.max(high));
        let step = (rng.below(4) == 0).then(|| low / (1 + rng.sized(3)) as f64);
        let d = float(low, high, true, step);
        if is_well_formed(&d) {
            return d;
        }
    }
}

/// A power of two, a whole number, a decimal or any.
fn log_end(rng: &mut SplitMix64) -> f64 {
    match rng.below(4) {
        0 => 2_f64.powi(rng.between(-52, 52) as i32),
        1 => (1 + rng.sized(12)) as f64,
        2 => (1 + rng.sized(7)) as f64 / rng.pick(&[10.0, 100.0, 1000.0, 1e5]),
        _ => f64::from_bits(with_exponent(rng, -52, 51)),
    }
}

/// A stepped range whose last step is above high, if one of the first few is such.
fn overshooting(rng: &mut SplitMix64) -> DistributionWords {
    let few: Vec<_> = (0..16).map(|_| stepped_float(rng)).collect();
    *few.iter().find(|d| overshoots(d)).unwrap_or(&few[0])
}

fn overshoots(words: &DistributionWords) -> bool {
    let [low, high, step] = [words[1], words[2], words[5]].map(f64::from_bits);
    low + ((high - low) / step).floor() * step > high
}

/// Whole numbers over a denominator as low, high and step.
fn stepped_float(rng: &mut SplitMix64) -> DistributionWords {
    let denominator = rng.pick(&[10.0, 100.0, 1000.0, 1e6, 20.0, 3.0, 7.0]);
    let over = |number: i64| number as f64 / denominator;
    let low = if rng.below(2) == 0 { 0 } else { rng.between(-1000, 1000) };
    let (step, count) = (1 + rng.sized(6) as i64, 1 + rng.sized(10) as i64);
    float(over(low), over(low + count * step), false, Some(over(step)))
}

fn linear_float(rng: &mut SplitMix64) -> DistributionWords {
    loop {
        let (low, high) = random_float_ends(rng);
        let d = float(low.min(high), low.max(high), false, None);
        if is_well_formed(&d) {
            return d;
        }
    }
}
