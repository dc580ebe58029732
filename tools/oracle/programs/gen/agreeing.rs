//! Pairs of lists of calls whose histories differ as much as they may while the answers stay equal:
//! document 01, section "Phases", says where two histories agree.

use crate::lists::reordered;
use crate::random_runs;
use crate::run_edges;
use crate::runs::{Call, MAX_WORDS, Run, Settings};
use history::{HEAD_WORDS, MAX_SLOTS, RECENT_ROWS, SLOT_WORDS};
use splitmix::SplitMix64;

/// The states that agree with each other; any other agrees with itself alone.
const STATES: u64 = 4;

/// Makes pairs: by turns of an edge, as long as there are such, and of a random run.
pub struct Pairs {
    seed: u64,
    edges: Vec<Run>,
}

impl Pairs {
    pub fn new(seed: u64) -> Self {
        let edges = run_edges::runs().into_iter().filter(has_history).collect();
        Self { seed, edges }
    }

    /// The words of both lines. The pair depends on the seed and on its number alone.
    pub fn pair(&self, number: u64) -> [Vec<u64>; 2] {
        let mut rng = SplitMix64::for_line(self.seed, number);
        let edge = self.edges.get(number as usize / 2).filter(|_| number % 2 == 0);
        let run = edge.cloned().unwrap_or_else(|| random_run(&mut rng));
        let other = agreeing(&mut rng, &run);
        [run, other].map(|run| run.words())
    }
}

fn random_run(rng: &mut SplitMix64) -> Run {
    loop {
        let run = random_runs::run(rng);
        if has_history(&run) {
            return run;
        }
    }
}

/// Without one there is nothing that may differ.
fn has_history(run: &Run) -> bool {
    let has = |call: &Call| matches!(call, Call::Sample { history, .. } if !history.is_empty());
    (1..=MAX_SLOTS).contains(&run.settings.slots) && run.calls.iter().any(has)
}

/// The same settings and calls with other histories.
fn agreeing(rng: &mut SplitMix64, run: &Run) -> Run {
    let mut other = run.clone();
    let mut spare = MAX_WORDS.saturating_sub(run.words().len());
    for call in &mut other.calls {
        if let Call::Sample { history, .. } = call {
            let before = history.len();
            *history = agreeing_history(rng, &run.settings, history, spare);
            spare = (spare + before).saturating_sub(history.len());
        }
    }
    other
}

/// At most `spare` words longer.
fn agreeing_history(
    rng: &mut SplitMix64,
    settings: &Settings,
    words: &[u64],
    spare: usize,
) -> Vec<u64> {
    let width = HEAD_WORDS + SLOT_WORDS * settings.slots as usize;
    if !words.len().is_multiple_of(width) {
        return broken_rows(rng, width, words.len() + spare);
    }
    let rows: Vec<&[u64]> = words.chunks(width).collect();
    let (older, recent) = rows.split_at(rows.len().saturating_sub(RECENT_ROWS));
    let count = older_count(rng, settings.startup, rows.len(), spare / width);
    let older = older_words(rng, older, count * width);
    let recent = recent.iter().flat_map(|row| agreeing_row(rng, row));
    older.into_iter().chain(recent).collect()
}

/// Any words that are no whole rows, at most `most` of them.
fn broken_rows(rng: &mut SplitMix64, width: usize, most: usize) -> Vec<u64> {
    let rows = rng.below((most / width).min(3) as u64 + 1) as usize;
    let rest = 1 + rng.below(width as u64 - 1) as usize;
    let length = (rows * width + rest).min(most);
    let length = if length.is_multiple_of(width) { length - 1 } else { length };
    (0..length).map(|_| rng.sized(64)).collect()
}

/// How many rows are put before the recent ones, where there are 100 of these. Start-up is reached
/// or not, as before.
fn older_count(rng: &mut SplitMix64, startup: u64, rows: usize, spare: usize) -> usize {
    let older = rows.saturating_sub(RECENT_ROWS);
    if rows < RECENT_ROWS {
        return 0;
    }
    let reached = rows as u64 >= startup;
    let least = if reached { (startup as usize).saturating_sub(RECENT_ROWS) } else { 0 };
    let most = if reached { older + spare } else { startup as usize - 1 - RECENT_ROWS };
    let most = most.min(older + spare).max(least);
    least + rng.below((most - least).min(20) as u64 + 1) as usize
}

/// Any words, or some of those that were there.
fn older_words(rng: &mut SplitMix64, older: &[&[u64]], length: usize) -> Vec<u64> {
    let old = if rng.below(4) == 0 { older.concat() } else { vec![] };
    let kept = old.len().min(length);
    let new = (kept..length).map(|_| rng.sized(64)).collect::<Vec<_>>();
    [&old[..kept], &new].concat()
}

/// Another trial number, another state where it is one of the four, the slots in another order.
fn agreeing_row(rng: &mut SplitMix64, row: &[u64]) -> Vec<u64> {
    let (&[trial, state, objective], slots) = row.split_first_chunk().expect("a head");
    let other_trial = trial ^ (1 + rng.sized(63));
    let other_state = if state < STATES { rng.below(STATES) } else { state };
    let slots = reordered(rng, slots.chunks(SLOT_WORDS)).concat();
    [&[other_trial, other_state, objective], &slots[..]].concat()
}
