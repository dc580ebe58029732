//! Lists of calls on a sampler, for `run`.

use records::DistributionWords;
use run::{CLOSE, SAMPLE};

/// The most words of a line, so that it is not too long to be read.
pub const MAX_WORDS: usize = 3_800;

#[derive(Clone, Copy, PartialEq, Eq, Hash)]
pub struct Settings {
    pub startup: u64,
    pub candidates: u64,
    /// A float's word.
    pub noise: u64,
    pub seed: u64,
    pub slots: u64,
}

#[derive(Clone, PartialEq, Eq, Hash)]
pub enum Call {
    Sample { trial: u64, asked: DistributionWords, history: Vec<u64> },
    Close { trial: u64 },
}

#[derive(Clone, PartialEq, Eq, Hash)]
pub struct Run {
    pub settings: Settings,
    pub calls: Vec<Call>,
}

impl Settings {
    pub fn words(&self) -> [u64; 5] {
        [self.startup, self.candidates, self.noise, self.seed, self.slots]
    }
}

impl Call {
    pub fn trial(&self) -> u64 {
        match *self {
            Self::Sample { trial, .. } | Self::Close { trial } => trial,
        }
    }

    pub fn words(&self) -> Vec<u64> {
        match self {
            Self::Sample { trial, asked, history } => {
                [&[SAMPLE, *trial], &asked[..], &[history.len() as u64], history].concat()
            }
            Self::Close { trial } => vec![CLOSE, *trial],
        }
    }
}

impl Run {
    pub fn new(settings: Settings) -> Self {
        Self { settings, calls: vec![] }
    }

    /// Without a history.
    pub fn ask(self, trial: u64, asked: &DistributionWords) -> Self {
        self.ask_with(trial, asked, &[])
    }

    pub fn ask_with(mut self, trial: u64, asked: &DistributionWords, history: &[u64]) -> Self {
        self.calls.push(Call::Sample { trial, asked: *asked, history: history.to_vec() });
        self
    }

    /// Each in turn, without a history.
    pub fn ask_each(self, trial: u64, list: &[DistributionWords]) -> Self {
        list.iter().fold(self, |run, asked| run.ask(trial, asked))
    }

    /// Each in turn, the first one with the history.
    pub fn ask_each_with(self, trial: u64, list: &[DistributionWords], history: &[u64]) -> Self {
        match list {
            [] => self,
            [first, others @ ..] => self.ask_with(trial, first, history).ask_each(trial, others),
        }
    }

    pub fn close(mut self, trial: u64) -> Self {
        self.calls.push(Call::Close { trial });
        self
    }

    pub fn words(&self) -> Vec<u64> {
        let calls = self.calls.iter().flat_map(Call::words);
        self.settings.words().into_iter().chain(calls).collect()
    }
}
