//! Texts of `propose`: settings, one history and calls, and the lines that they make.

use crate::lists::distinct;
use crate::runs::{Call, Run, Settings};
use history::{HEAD_WORDS, MAX_SLOTS, SLOT_WORDS};
use propose_text::{CALL_NAMES, SETTINGS_NAMES, history_names};
use records::DistributionWords;

#[derive(Clone, PartialEq, Eq, Hash)]
pub struct Text {
    pub settings: Settings,
    /// The words of a history, which is not of whole rows where it is made wrong.
    pub history: Vec<u64>,
    pub calls: Vec<(u64, DistributionWords)>,
}

/// Lines with their newlines.
pub type Lines = Vec<Vec<u8>>;

impl Text {
    pub fn new(settings: Settings, history: &[u64]) -> Self {
        Self { settings, history: history.to_vec(), calls: vec![] }
    }

    pub fn ask(mut self, trial: u64, asked: &DistributionWords) -> Self {
        self.calls.push((trial, *asked));
        self
    }

    pub fn ask_each(self, trial: u64, list: &[DistributionWords]) -> Self {
        list.iter().fold(self, |text, asked| text.ask(trial, asked))
    }

    /// The words of a row. Slots out of range are those of the nearest that are not.
    pub fn row_words(slots: u64) -> usize {
        HEAD_WORDS + SLOT_WORDS * slots.clamp(1, MAX_SLOTS) as usize
    }

    pub fn lines(&self) -> Lines {
        let slots = self.settings.slots.clamp(1, MAX_SLOTS);
        let rows = self.history.chunks(Self::row_words(slots)).map(word_line);
        let calls = self.calls.iter().map(|(trial, asked)| word_line(&call_words(*trial, asked)));
        [names_line(SETTINGS_NAMES), word_line(&self.settings.words())]
            .into_iter()
            .chain([names_line(&history_names(slots))])
            .chain(rows)
            .chain([names_line(CALL_NAMES)])
            .chain(calls)
            .collect()
    }

    pub fn bytes(&self) -> Vec<u8> {
        self.lines().concat()
    }
}

fn call_words(trial: u64, asked: &DistributionWords) -> Vec<u64> {
    [&[trial], &asked[..]].concat()
}

pub fn names_line(names: &str) -> Vec<u8> {
    format!("{names}\n").into_bytes()
}

pub fn word_line(words: &[u64]) -> Vec<u8> {
    let fields: Vec<String> = words.iter().map(|word| format!("{word:016x}")).collect();
    format!("{}\n", fields.join(" ")).into_bytes()
}

/// The samples of a run, with each of its histories in turn for all of them.
pub fn of_run(run: &Run) -> Vec<Text> {
    let calls: Vec<_> = run.calls.iter().filter_map(asked_call).collect();
    let histories: Vec<Vec<u64>> = run.calls.iter().filter_map(history_of).collect();
    let histories = if histories.is_empty() { vec![vec![]] } else { distinct(histories) };
    let text = |history| Text { settings: run.settings, history, calls: calls.clone() };
    histories.into_iter().map(text).collect()
}

fn asked_call(call: &Call) -> Option<(u64, DistributionWords)> {
    match call {
        Call::Sample { trial, asked, .. } => Some((*trial, *asked)),
        Call::Close { .. } => None,
    }
}

/// None where there are no rows.
fn history_of(call: &Call) -> Option<Vec<u64>> {
    match call {
        Call::Sample { history, .. } if !history.is_empty() => Some(history.clone()),
        _ => None,
    }
}
