//! Random texts of `propose`, a third of them damaged.

use crate::cases::{Parameter, Row, full_row};
use crate::clamped;
use crate::lists::reordered;
use crate::random_distributions;
use crate::random_runs::{self, parameters, random_noise};
use crate::runs::Settings;
use crate::text_damage::damaged;
use crate::text_edges::Made;
use crate::texts::{Text, of_run};
use crate::values::{inner_value, taken_value};
use history::MAX_SLOTS;
use propose_text::MAX_HISTORY_WORDS;
use splitmix::SplitMix64;

pub fn made(rng: &mut SplitMix64) -> Made {
    let text = text(rng);
    if rng.below(3) == 0 {
        return Made { bytes: damaged(rng, text.lines()), damaged: true };
    }
    Made { bytes: text.bytes(), damaged: false }
}

fn text(rng: &mut SplitMix64) -> Text {
    if rng.below(4) == 0 { study(rng) } else { random_run(rng) }
}

/// A run's calls with one of its histories.
fn random_run(rng: &mut SplitMix64) -> Text {
    let texts = of_run(&random_runs::run(rng));
    let mut text = texts[rng.below(texts.len() as u64) as usize].clone();
    if rng.below(4) == 0 && text.settings.candidates < 50 {
        text.settings.candidates = rng.below(50);
    }
    text
}

/// Some trials that have all their values asked, for the most part with a model.
fn study(rng: &mut SplitMix64) -> Text {
    let dimensions = 1 + rng.below(6) as usize;
    let parameters = parameters(rng, dimensions);
    let slots = (dimensions as u64 + rng.below(8) / 6).min(MAX_SLOTS);
    let rows = row_count(rng, slots);
    let rows: Vec<Row> = (0..rows).map(|number| row(rng, number, slots, &parameters)).collect();
    let history: Vec<u64> = rows.iter().flat_map(Row::words).collect();
    let settings = settings(rng, slots, rows.len() as u64);
    let text = discovered(rng, Text::new(settings, &history), &parameters);
    let calls = trial_calls(rng, dimensions);
    calls.into_iter().fold(text, |text, trial| {
        let asked = match rng.below(32) {
            0 => random_distributions::distribution(rng),
            _ => rng.pick(&parameters).distribution,
        };
        text.ask(trial, &asked)
    })
}

/// Long histories are rare, and those about the limit of a text most of all.
fn row_count(rng: &mut SplitMix64, slots: u64) -> u64 {
    let most = (MAX_HISTORY_WORDS / Text::row_words(slots)) as u64;
    match rng.below(256) {
        0 => most - 1 + rng.below(3),
        1..=7 => 95 + rng.below(11),
        8..=31 => 20 + rng.below(40),
        _ => rng.below(16),
    }
}

fn row(rng: &mut SplitMix64, number: u64, slots: u64, parameters: &[Parameter]) -> Row {
    let value = if rng.below(8) == 0 { taken_value } else { inner_value };
    full_row(rng, number, slots as usize, parameters, value)
}

fn settings(rng: &mut SplitMix64, slots: u64, rows: u64) -> Settings {
    let startup = match rng.below(8) {
        0 => rows + 1,
        1 => rows,
        2 => 10,
        _ => rng.below(rows + 1),
    };
    let candidates = if rng.below(32) == 0 { 1_000 } else { rng.below(50) };
    let noise = random_noise(rng).to_bits();
    let seed = clamped::seed(rng.next_word().max(1));
    Settings { startup, candidates, noise, seed, slots }
}

/// All dimensions, asked by the first trial.
fn discovered(rng: &mut SplitMix64, text: Text, parameters: &[Parameter]) -> Text {
    let list: Vec<_> = reordered(rng, parameters).iter().map(|p| p.distribution).collect();
    text.ask_each(FIRST_TRIAL, &list)
}

const FIRST_TRIAL: u64 = 7;

/// One trial after the other, or by turns; some are asked past their last value. Now and then the
/// first trial comes again.
fn trial_calls(rng: &mut SplitMix64, dimensions: usize) -> Vec<u64> {
    let first = FIRST_TRIAL + u64::from(rng.below(16) > 0);
    let trials = first..first + 1 + rng.below(4);
    let again = (rng.below(16) == 0).then_some(FIRST_TRIAL);
    let count = dimensions + usize::from(rng.below(4) == 0);
    let calls: Vec<u64> =
        trials.chain(again).flat_map(|trial| std::iter::repeat_n(trial, count)).collect();
    if rng.below(4) == 0 { reordered(rng, calls) } else { calls }
}
