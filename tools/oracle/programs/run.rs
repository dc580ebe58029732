//! Calls on a sampler: the answers are those of the Rust's `Sampler::sample`. Lists of them for `leaf`.
//! The Rust has neither the refusals 1 to 10 nor `close`: they are written from document 01.

use arithmetic::Refusal;
use history::{History, MAX_SLOTS};
use leaf_lines::{Answer, word_to_float};
use optimizer::sampler::Sampler;
use optimizer::sampler::gp::GpSampler;
use records::{DistributionWords, value_words};
use training::take;

const SETTING_OUT_OF_RANGE: Refusal = Refusal(1);
const MALFORMED_DISTRIBUTION: Refusal = Refusal(2);
const DIMENSIONS_TAKEN: Refusal = Refusal(8);
const PLACES_TAKEN: Refusal = Refusal(9);
const NO_PLACE: Refusal = Refusal(10);

/// The most dimensions of a sampler.
pub const MAX_DIMENSIONS: usize = 20;
/// The most trials that have a place.
pub const MAX_PLACES: usize = 32;

/// 2^32, the largest start-up.
pub const MAX_STARTUP: u64 = 1 << 32;
pub const MAX_CANDIDATES: u64 = 10_000;
pub const MAX_NOISE: f64 = 1e6;

/// The first word of a call.
pub const SAMPLE: u64 = 1;
pub const CLOSE: u64 = 2;

/// Number, kind, value and words drawn.
pub type CallAnswer = [u64; 4];

pub struct Settings {
    startup: u64,
    candidates: u64,
    noise: f64,
    seed: u64,
    pub slots: u64,
}

enum Call<'a> {
    Sample { trial: u64, asked: &'a DistributionWords, history: &'a [u64] },
    Close { trial: u64 },
}

/// The settings and then calls: four words for each call, the generator's word, the number of taken
/// places, and of each of these its trial and its next dimension. None where the words do not divide
/// into calls, whatever the settings are.
pub fn run(words: &[u64]) -> Option<Answer> {
    let (settings, rest) = words.split_first_chunk()?;
    let settings = Settings::of(settings);
    let calls = read_calls(rest)?;
    Some(settings.sampler().map(|sampler| answers(&sampler, settings.slots, &calls)))
}

fn read_calls(mut words: &[u64]) -> Option<Vec<Call<'_>>> {
    let mut calls = vec![];
    while !words.is_empty() {
        let (call, rest) = read_call(words)?;
        calls.push(call);
        words = rest;
    }
    Some(calls)
}

/// The first call and the words after it.
fn read_call(words: &[u64]) -> Option<(Call<'_>, &[u64])> {
    match *words {
        [SAMPLE, trial, ref rest @ ..] => {
            let (asked, rest) = rest.split_first_chunk()?;
            let (&length, rest) = rest.split_first()?;
            let (history, rest) = take(rest, length)?;
            Some((Call::Sample { trial, asked, history }, rest))
        }
        [CLOSE, trial, ref rest @ ..] => Some((Call::Close { trial }, rest)),
        _ => None,
    }
}

impl Settings {
    /// In the order of the text.
    pub fn of(words: &[u64; 5]) -> Self {
        let &[startup, candidates, noise, seed, slots] = words;
        Self { startup, candidates, noise: word_to_float(noise), seed, slots }
    }

    /// Refused where a setting is out of range.
    pub fn sampler(&self) -> Result<GpSampler, Refusal> {
        if !self.are_within_range() {
            return Err(SETTING_OUT_OF_RANGE);
        }
        let builder = GpSampler::builder()
            .n_startup_trials(self.startup as usize)
            .n_candidates(self.candidates as usize)
            .noise_variance(self.noise)
            .seed(self.seed);
        Ok(builder.build())
    }

    fn are_within_range(&self) -> bool {
        self.startup <= MAX_STARTUP
            && self.candidates <= MAX_CANDIDATES
            && (0.0..=MAX_NOISE).contains(&self.noise)
            && self.seed != 0
            && (1..=MAX_SLOTS).contains(&self.slots)
    }
}

fn answers(sampler: &GpSampler, slots: u64, calls: &[Call]) -> Vec<u64> {
    let mut places = Places::none();
    let mut words = vec![];
    for call in calls {
        words.extend(answer(sampler, slots, call));
        places.follow(sampler, call.trial());
    }
    words.extend([sampler.generator_word(), sampler.place_count() as u64]);
    words.extend(places.words(sampler));
    words
}

impl Call<'_> {
    fn trial(&self) -> u64 {
        match *self {
            Self::Sample { trial, .. } | Self::Close { trial } => trial,
        }
    }
}

/// Which trial each place holds. The Rust has a map in their stead: this is written from document 01.
struct Places([Option<u64>; MAX_PLACES]);

impl Places {
    fn none() -> Self {
        Self([None; MAX_PLACES])
    }

    /// After a call of this trial: it takes the first free place where it is new in the map, and
    /// frees its own where it is there no more.
    fn follow(&mut self, sampler: &GpSampler, trial: u64) {
        let place = self.0.iter().position(|held| *held == Some(trial));
        match (place, sampler.has_place(trial)) {
            (None, true) => self.take(trial),
            (Some(place), false) => self.0[place] = None,
            _ => {}
        }
    }

    fn take(&mut self, trial: u64) {
        let first_free = self.0.iter_mut().find(|held| held.is_none());
        *first_free.expect("a free place for a new trial") = Some(trial);
    }

    /// In order, each taken one's trial and next dimension.
    fn words(&self, sampler: &GpSampler) -> Vec<u64> {
        let taken = self.0.iter().flatten();
        taken.flat_map(|&trial| [trial, sampler.next_dimension(trial) as u64]).collect()
    }
}

fn answer(sampler: &GpSampler, slots: u64, call: &Call) -> CallAnswer {
    let answer = match *call {
        Call::Sample { trial, asked, history } => sample(sampler, slots, trial, asked, history),
        Call::Close { trial } => close(sampler, trial),
    };
    answer.unwrap_or_else(|Refusal(number)| [number, 0, number, 0])
}

/// The words drawn are the moves that the generator counts.
pub fn sample(
    sampler: &GpSampler,
    slots: u64,
    trial: u64,
    asked: &DistributionWords,
    history: &[u64],
) -> Result<CallAnswer, Refusal> {
    let distribution = records::distribution(asked).ok_or(MALFORMED_DISTRIBUTION)?;
    let history = History::read(slots, history)?;
    test_room(sampler, trial)?;
    let before = sampler.words_drawn();
    let value = sampler.sample(&distribution, trial, &history.trials());
    let [kind, word] = value_words(&value);
    Ok([0, kind, word, sampler.words_drawn() - before])
}

/// Tests 8 in discovery, and 9 otherwise.
fn test_room(sampler: &GpSampler, trial: u64) -> Result<(), Refusal> {
    if discovers(sampler, trial) {
        let full = sampler.dimension_count() >= MAX_DIMENSIONS;
        return if full { Err(DIMENSIONS_TAKEN) } else { Ok(()) };
    }
    let full = !sampler.has_place(trial) && sampler.place_count() >= MAX_PLACES;
    if full { Err(PLACES_TAKEN) } else { Ok(()) }
}

/// Whether a call of this trial makes a dimension: the first call, and others of its trial until
/// another trial ends discovery.
fn discovers(sampler: &GpSampler, trial: u64) -> bool {
    !sampler.is_active() && sampler.discovery_trial().is_none_or(|first| first == trial)
}

fn close(sampler: &GpSampler, trial: u64) -> Result<CallAnswer, Refusal> {
    if sampler.free_place(trial) { Ok([0; 4]) } else { Err(NO_PLACE) }
}
