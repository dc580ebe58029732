//! Words as the history of document 01, section "Records": its rows, and the refusals 3 to 7.
//! The Rust has none of these refusals: they are written from document 01.

use arithmetic::{OUT_OF_DOMAIN, Refusal};
use optimizer::distribution::Distribution;
use optimizer::param::ParamValue;
use optimizer::parameter::ParamId;
use optimizer::sampler::CompletedTrial;
use optimizer::types::TrialState;
use records::DistributionWords;
use std::collections::{HashMap, HashSet};

const NOT_WHOLE_ROWS: Refusal = Refusal(3);
const BAD_STATE_OR_OBJECTIVE: Refusal = Refusal(4);
const BAD_SLOT: Refusal = Refusal(5);
const ID_TWICE_IN_A_ROW: Refusal = Refusal(6);
const UNEQUAL_DISTRIBUTIONS: Refusal = Refusal(7);

pub const MAX_SLOTS: u64 = 20;
/// Rows before these are never read.
pub const RECENT_ROWS: usize = 100;
/// 2^52, the largest magnitude of an objective.
pub const MAX_OBJECTIVE: f64 = (1_u64 << 52) as f64;

/// Trial number, state and objective.
pub const HEAD_WORDS: usize = 3;
/// Parameter id, distribution and taken value.
pub const SLOT_WORDS: usize = 8;

pub struct History {
    older: usize,
    recent: Vec<Row>,
}

struct Row {
    head: Head,
    entries: Vec<Entry>,
}

struct Head {
    trial: u64,
    state: TrialState,
    objective: f64,
}

/// A slot that is present.
struct Entry {
    id: u64,
    distribution: Distribution,
    taken: ParamValue,
}

impl History {
    /// Each test goes over all recent rows before the next.
    pub fn read(slots: u64, words: &[u64]) -> Result<Self, Refusal> {
        if !(1..=MAX_SLOTS).contains(&slots) {
            return Err(OUT_OF_DOMAIN);
        }
        let rows = whole_rows(slots as usize, words).ok_or(NOT_WHOLE_ROWS)?;
        let older = rows.len().saturating_sub(RECENT_ROWS);
        let recent = read_rows(&rows[older..])?;
        if !recent.iter().all(has_distinct_ids) {
            return Err(ID_TWICE_IN_A_ROW);
        }
        if !ids_keep_distributions(&recent) {
            return Err(UNEQUAL_DISTRIBUTIONS);
        }
        Ok(Self { older, recent })
    }

    /// The number of all rows, older ones included.
    pub fn rows(&self) -> usize {
        self.older + self.recent.len()
    }

    pub fn first_recent(&self) -> Option<CompletedTrial> {
        self.recent.first().map(completed_trial)
    }

    /// One for each row. The Rust picks the recent ones itself, so the older ones are there too; as
    /// their words are never read, they have no parameters and a NaN for an objective, which would show.
    pub fn trials(&self) -> Vec<CompletedTrial> {
        let older = (0..self.older).map(|_| unread_trial());
        older.chain(self.recent.iter().map(completed_trial)).collect()
    }
}

/// None where the words do not divide into rows.
fn whole_rows(slots: usize, words: &[u64]) -> Option<Vec<&[u64]>> {
    let rows = words.chunks_exact(HEAD_WORDS + SLOT_WORDS * slots);
    rows.remainder().is_empty().then(|| rows.collect())
}

/// All heads are judged before any slot.
fn read_rows(rows: &[&[u64]]) -> Result<Vec<Row>, Refusal> {
    let heads: Vec<Head> =
        rows.iter().map(|row| head(row)).collect::<Option<_>>().ok_or(BAD_STATE_OR_OBJECTIVE)?;
    let entries: Vec<Vec<Entry>> =
        rows.iter().map(|row| entries(row)).collect::<Option<_>>().ok_or(BAD_SLOT)?;
    let pairs = heads.into_iter().zip(entries);
    Ok(pairs.map(|(head, entries)| Row { head, entries }).collect())
}

/// None for a bad state or objective.
fn head(row: &[u64]) -> Option<Head> {
    let (trial, objective) = (row[0], f64::from_bits(row[2]));
    let state = trial_state(row[1])?;
    let fits = objective.is_finite() && objective.abs() <= MAX_OBJECTIVE;
    fits.then_some(Head { trial, state, objective })
}

fn trial_state(word: u64) -> Option<TrialState> {
    match word {
        0 => Some(TrialState::Running),
        1 => Some(TrialState::Complete),
        2 => Some(TrialState::Failed),
        3 => Some(TrialState::Pruned),
        _ => None,
    }
}

/// The slots that are present; none where a slot is bad.
fn entries(row: &[u64]) -> Option<Vec<Entry>> {
    let (slots, _) = row[HEAD_WORDS..].as_chunks();
    let present = slots.iter().filter(|slot| !is_absent(slot));
    present.map(entry).collect()
}

fn is_absent(slot: &[u64; SLOT_WORDS]) -> bool {
    *slot == [0; SLOT_WORDS]
}

/// None for a bad slot: kind 0 is no kind of a distribution, so the other words do not matter then.
fn entry(slot: &[u64; SLOT_WORDS]) -> Option<Entry> {
    let &[id, ref words @ .., taken] = slot;
    let words: &DistributionWords = words;
    let distribution = records::distribution(words)?;
    let taken = records::value(words[0], taken)?;
    records::may_be_taken(&taken, &distribution).then_some(Entry { id, distribution, taken })
}

fn has_distinct_ids(row: &Row) -> bool {
    let mut seen = HashSet::new();
    row.entries.iter().all(|entry| seen.insert(entry.id))
}

/// By the Rust's own `==`; the first distribution of an id stands for all before, as no NaN is here.
fn ids_keep_distributions(rows: &[Row]) -> bool {
    let mut firsts: HashMap<u64, &Distribution> = HashMap::new();
    let mut entries = rows.iter().flat_map(|row| &row.entries);
    entries
        .all(|entry| *firsts.entry(entry.id).or_insert(&entry.distribution) == &entry.distribution)
}

fn completed_trial(row: &Row) -> CompletedTrial {
    let Head { trial, state, objective } = row.head;
    let id = |entry: &Entry| ParamId::from(entry.id);
    let entries = row.entries.iter();
    CompletedTrial {
        params: entries.clone().map(|entry| (id(entry), entry.taken.clone())).collect(),
        distributions: entries.map(|entry| (id(entry), entry.distribution.clone())).collect(),
        ..trial_without_parameters(trial, state, objective)
    }
}

fn unread_trial() -> CompletedTrial {
    trial_without_parameters(0, TrialState::Running, f64::NAN)
}

fn trial_without_parameters(id: u64, state: TrialState, value: f64) -> CompletedTrial {
    CompletedTrial {
        id,
        params: HashMap::new(),
        distributions: HashMap::new(),
        param_labels: HashMap::new(),
        value,
        intermediate_values: vec![],
        state,
        user_attrs: HashMap::new(),
        constraints: vec![],
    }
}
