//! Random lists of calls on a sampler: mostly short, with few trials and histories that fit.

use crate::cases::{ABSENT, Parameter, Row, full_row};
use crate::clamped;
use crate::distributions::{choice, float, int};
use crate::equal::with_other_zeros;
use crate::floats::signed_with_exponent;
use crate::lists::reordered;
use crate::random_cases::{damage, head, ids};
use crate::random_distributions;
use crate::runs::{Call, MAX_WORDS, Run, Settings};
use crate::values::{inner_value, taken_value};
use history::MAX_SLOTS;
use records::DistributionWords;
use run::{MAX_CANDIDATES, MAX_NOISE, MAX_STARTUP};
use splitmix::SplitMix64;

/// Trial numbers at both ends.
const EDGE_TRIALS: &[u64] = &[0, 1, 1 << 32, 1 << 63, u64::MAX];

pub fn words(rng: &mut SplitMix64) -> Vec<u64> {
    let mut words = run(rng).words();
    match rng.below(256) {
        0 => words.truncate(words.len() - 1),
        1 => words.push(rng.sized(3)),
        2 => {
            let place = rng.below(words.len() as u64) as usize;
            words[place] = rng.sized(64);
        }
        _ => {}
    }
    words
}

pub fn run(rng: &mut SplitMix64) -> Run {
    match rng.below(32) {
        0 => crowd(rng),
        1 => wide(rng),
        _ => Study::random(rng).run(rng),
    }
}

/// What the calls of a run are made of.
struct Study {
    settings: Settings,
    parameters: Vec<Parameter>,
    trials: Vec<u64>,
    /// The most rows of a history.
    rows: u64,
    calls: Vec<Call>,
    /// How many words the line has so far.
    length: usize,
}

impl Study {
    fn random(rng: &mut SplitMix64) -> Self {
        let (dimensions, rows) = match rng.below(64) {
            0 | 1 => (1, 105),
            2 | 3 => (6 + rng.below(6), 6),
            4..=19 => (1, 30),
            20..=35 => (2, 15),
            _ => (1 + rng.below(5), 8),
        };
        let trials = 2 + rng.below(4);
        Self::of(rng, dimensions as usize, trials as usize, rows)
    }

    fn of(rng: &mut SplitMix64, dimensions: usize, trials: usize, rows: u64) -> Self {
        let parameters = parameters(rng, dimensions);
        let slots = match rng.below(16) {
            0 => 1 + rng.below(dimensions as u64 + 2),
            1 | 2 => dimensions as u64 + rng.below(3),
            _ => dimensions as u64,
        };
        let settings = settings(rng, slots.min(MAX_SLOTS), rows);
        let trials = (0..trials as u64).map(|number| trial(rng, number)).collect();
        let length = settings.words().len();
        Self { settings, parameters, trials, rows, calls: vec![], length }
    }

    /// A discovery, which may be cut short, and calls after it.
    fn run(mut self, rng: &mut SplitMix64) -> Run {
        self.discover(rng);
        if rng.below(4) > 0 {
            self.end_discovery(rng);
        }
        for _ in 0..rng.below(9) {
            self.add_call(rng);
        }
        Run { settings: self.settings, calls: self.calls }
    }

    fn discover(&mut self, rng: &mut SplitMix64) {
        let asked: Vec<_> = self.parameters.iter().map(|p| p.distribution).collect();
        let all = asked.len() as u64;
        let count = if rng.below(16) == 0 { rng.below(all + 1) } else { all };
        for mut asked in asked.into_iter().take(count as usize) {
            if rng.below(16) == 0 {
                self.add_refused(rng, self.trials[0]);
            }
            if rng.below(16) == 0 {
                asked = with_other_zeros(asked);
            }
            let history = if rng.below(16) == 0 { self.history(rng) } else { vec![] };
            self.add(Call::Sample { trial: self.trials[0], asked, history });
        }
    }

    fn end_discovery(&mut self, rng: &mut SplitMix64) {
        let asked = self.parameters[0].distribution;
        let history = if rng.below(8) == 0 { self.history(rng) } else { vec![] };
        self.add(Call::Sample { trial: self.trials[1], asked, history });
    }

    /// The first call of a trial has a history; others have one now and then.
    fn add_call(&mut self, rng: &mut SplitMix64) {
        let trial = self.pick_trial(rng);
        if rng.below(10) == 0 {
            return self.add(Call::Close { trial });
        }
        if rng.below(8) == 0 {
            return self.add_refused(rng, trial);
        }
        let asked = match rng.below(8) {
            0 => random_distributions::well_formed(rng),
            _ => rng.pick(&self.parameters).distribution,
        };
        let history =
            if self.is_new(trial) || rng.below(8) == 0 { self.history(rng) } else { vec![] };
        self.add(Call::Sample { trial, asked, history });
    }

    /// Half of them are new, as long as there are such.
    fn pick_trial(&self, rng: &mut SplitMix64) -> u64 {
        let new: Vec<u64> = self.trials.iter().copied().filter(|&t| self.is_new(t)).collect();
        if new.is_empty() || rng.below(2) == 0 { rng.pick(&self.trials) } else { rng.pick(&new) }
    }

    /// Not asked so far, or closed since then.
    fn is_new(&self, trial: u64) -> bool {
        let last = self.calls.iter().rev().find(|call| call.trial() == trial);
        last.is_none_or(|call| matches!(call, Call::Close { .. }))
    }

    /// A malformed distribution or a damaged history, which may be accepted all the same.
    fn add_refused(&mut self, rng: &mut SplitMix64, trial: u64) {
        let asked = rng.pick(&self.parameters).distribution;
        let call = match rng.below(8) {
            0 => Call::Close { trial: rng.sized(64) },
            1 => {
                let asked = random_distributions::damaged(rng, asked);
                Call::Sample { trial, asked, history: vec![] }
            }
            2 => {
                let mut history = self.history(rng);
                history.push(rng.sized(64));
                Call::Sample { trial, asked, history }
            }
            _ => Call::Sample { trial, asked, history: self.damaged_history(rng) },
        };
        self.add(call);
    }

    /// A call that the line has no room for is left out.
    fn add(&mut self, call: Call) {
        let length = self.length + call.words().len();
        if length <= MAX_WORDS {
            self.length = length;
            self.calls.push(call);
        }
    }

    fn history(&self, rng: &mut SplitMix64) -> Vec<u64> {
        self.row_list(rng).iter().flat_map(Row::words).collect()
    }

    fn damaged_history(&self, rng: &mut SplitMix64) -> Vec<u64> {
        let mut rows = self.row_list(rng);
        damage(rng, &mut rows, &self.parameters);
        rows.iter().flat_map(Row::words).collect()
    }

    /// As many rows as start-up asks for, or one fewer or more, or any number.
    fn row_list(&self, rng: &mut SplitMix64) -> Vec<Row> {
        let startup = self.settings.startup.min(self.rows);
        let count = match rng.below(8) {
            0 => startup.saturating_sub(1),
            1 => startup,
            2 => startup + 1,
            3..=6 if self.rows > 100 => 95 + rng.below(11),
            4 => rng.below(self.rows + 1),
            _ => startup + rng.below(self.rows + 1 - startup),
        };
        (0..count).map(|number| self.row(rng, number)).collect()
    }

    /// All parameters that there are slots for, in a random order; now and then one is missing.
    fn row(&self, rng: &mut SplitMix64, number: u64) -> Row {
        let slots = self.settings.slots.clamp(1, MAX_SLOTS) as usize;
        let present = self.parameters.len().min(slots);
        let value = if rng.below(4) == 0 { taken_value } else { inner_value };
        let mut row = full_row(rng, number, slots, &self.parameters[..present], value);
        if rng.below(4) == 0 {
            row.head = head(rng, number);
        }
        if rng.below(64) == 0 {
            let place = rng.below(slots as u64) as usize;
            row.slots[place] = ABSENT;
        }
        row
    }
}

/// Many trials of one or two dimensions, so that places run out.
fn crowd(rng: &mut SplitMix64) -> Run {
    let dimensions = 1 + rng.below(2) as usize;
    let trials = 30 + rng.below(12) as usize;
    let mut study = Study::of(rng, dimensions, trials, 2);
    study.discover(rng);
    let opened = 28 + rng.below(8) as usize;
    for trial in reordered(rng, study.trials.clone()).into_iter().take(opened) {
        let asked = study.parameters[0].distribution;
        study.add(Call::Sample { trial, asked, history: vec![] });
    }
    for _ in 0..rng.below(40) {
        study.add_call(rng);
    }
    Run { settings: study.settings, calls: study.calls }
}

/// About twenty dimensions.
fn wide(rng: &mut SplitMix64) -> Run {
    let dimensions = 16 + rng.below(7) as usize;
    Study::of(rng, dimensions, 3, 3).run(rng)
}

/// Simple ones and any others, some of them several times.
pub fn parameters(rng: &mut SplitMix64, count: usize) -> Vec<Parameter> {
    let variety = if rng.below(4) == 0 { 1 + rng.below(count as u64) } else { count as u64 };
    let pool: Vec<_> = (0..variety).map(|_| distribution(rng)).collect();
    let ids = ids(rng, count);
    let any = |(place, id)| {
        let distribution = pool[place % pool.len()];
        Parameter { id, distribution }
    };
    ids.into_iter().enumerate().map(any).collect()
}

fn distribution(rng: &mut SplitMix64) -> DistributionWords {
    match rng.below(16) {
        0..=2 => float(0.0, 1.0, false, None),
        3 => float(1e-5, 0.1, true, None),
        4 => float(0.0, 0.35, false, Some(0.01)),
        5 => int(0, 9, false, None),
        6 => int(1, 1000, true, None),
        7 => int(10, 20, false, Some(4)),
        8 => choice(5),
        9 => clamped::distribution(rng),
        _ => random_distributions::well_formed(rng),
    }
}

fn trial(rng: &mut SplitMix64, number: u64) -> u64 {
    match rng.below(16) {
        0 => rng.next_word(),
        1 => rng.pick(EDGE_TRIALS),
        _ => number + 7,
    }
}

/// One in some sixty is out of range or near a limit.
fn settings(rng: &mut SplitMix64, slots: u64, rows: u64) -> Settings {
    let startup = match rng.below(8) {
        0 => 0,
        1 => rng.below(rows + 1),
        2 => rows.min(RECENT + rng.below(4)),
        _ => rng.below(4),
    };
    let candidates = match rng.below(32) {
        0 => rng.below(50),
        _ => rng.below(9),
    };
    let noise = random_noise(rng).to_bits();
    let seed = clamped::seed(rng.next_word().max(1));
    let good = Settings { startup, candidates, noise, seed, slots };
    if rng.below(64) == 0 { odd_settings(rng, good) } else { good }
}

/// A start-up about which a long history's rows are.
const RECENT: u64 = 98;

pub fn random_noise(rng: &mut SplitMix64) -> f64 {
    match rng.below(16) {
        0 => rng.pick(&[0.0, -0.0]),
        1 => rng.pick(&[1.0, 0.1, 1e-3, MAX_NOISE]),
        2 => f64::from_bits(signed_with_exponent(rng, -60, 18)).abs(),
        _ => rng.pick(&[1e-6, 1e-4, 1e-2]),
    }
}

/// One of them about a limit, mostly beyond it.
fn odd_settings(rng: &mut SplitMix64, mut settings: Settings) -> Settings {
    match rng.below(5) {
        0 => settings.startup = rng.pick(&[MAX_STARTUP, MAX_STARTUP + 1, u64::MAX]),
        1 => settings.candidates = rng.pick(&[MAX_CANDIDATES + 1, 1 << 32, u64::MAX]),
        2 => {
            let noises = [MAX_NOISE.next_up(), -1e-300, f64::NAN, f64::INFINITY];
            settings.noise = rng.pick(&noises).to_bits();
        }
        3 => settings.seed = 0,
        _ => settings.slots = rng.pick(&[0, MAX_SLOTS + 1, u64::MAX]),
    }
    settings
}
