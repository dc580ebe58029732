//! Cases of `history`, `mapping` and `training`: a history and the dimensions beside it.

use crate::distributions::{choice, float, int};
use crate::floats::uniform;
use crate::lists::reordered;
use crate::values::{inner_value, taken_value};
use history::{HEAD_WORDS, SLOT_WORDS};
use records::DistributionWords;
use splitmix::SplitMix64;

/// Id, distribution and taken value.
pub type Slot = [u64; SLOT_WORDS];

pub const ABSENT: Slot = [0; SLOT_WORDS];

/// Places of words in a head and in a slot.
pub const STATE: usize = 1;
pub const OBJECTIVE: usize = 2;
pub const KIND: usize = 1;
pub const TAKEN: usize = 7;

/// Makes a value for a distribution.
pub type Values = fn(&mut SplitMix64, &DistributionWords) -> u64;

#[derive(Clone, Copy)]
pub struct Parameter {
    pub id: u64,
    pub distribution: DistributionWords,
}

impl Parameter {
    pub fn slot(&self, taken: u64) -> Slot {
        slot(self.id, &self.distribution, taken)
    }
}

#[derive(Clone, PartialEq, Eq, Hash)]
pub struct Row {
    /// Trial number, state and objective.
    pub head: [u64; HEAD_WORDS],
    pub slots: Vec<Slot>,
}

impl Row {
    pub fn words(&self) -> Vec<u64> {
        [&self.head[..], &self.slots.concat()].concat()
    }
}

#[derive(Clone, PartialEq, Eq, Hash)]
pub struct Case {
    /// The number of slots, which the rows have unless they are made wrong.
    pub slots: u64,
    pub dimensions: Vec<DistributionWords>,
    pub rows: Vec<Row>,
    /// Words after the rows that are no whole row, where the history is made wrong.
    pub tail: Vec<u64>,
}

impl Case {
    /// Each row has all the parameters, in changing slots and with taken values; the dimensions
    /// have their distributions.
    pub fn of(slots: usize, parameters: &[Parameter], rows: usize) -> Self {
        Self::with_values(slots, parameters, rows, taken_value)
    }

    /// The same with values between the ends.
    pub fn inner(slots: usize, parameters: &[Parameter], rows: usize) -> Self {
        Self::with_values(slots, parameters, rows, inner_value)
    }

    fn with_values(slots: usize, parameters: &[Parameter], rows: usize, value: Values) -> Self {
        let mut rng = SplitMix64::for_line(slots as u64, rows as u64);
        let mut row = |number| full_row(&mut rng, number, slots, parameters, value);
        let rows = (0..rows as u64).map(&mut row).collect();
        let dimensions = parameters.iter().map(|parameter| parameter.distribution).collect();
        Self { slots: slots as u64, dimensions, rows, tail: vec![] }
    }

    /// Some of a fixed list of parameters; from 3 slots on one is absent in each row.
    pub fn fixed(slots: usize, rows: usize) -> Self {
        let present = if slots < 3 { slots } else { slots - 1 };
        let all = parameters();
        let some = all.iter().cycle().skip(slots + rows).take(present);
        Self::of(slots, &some.copied().collect::<Vec<_>>(), rows)
    }

    pub fn with_dimensions(mut self, dimensions: &[DistributionWords]) -> Self {
        self.dimensions = dimensions.to_vec();
        self
    }

    pub fn with_head_word(mut self, row: usize, place: usize, word: u64) -> Self {
        self.rows[row].head[place] = word;
        self
    }

    pub fn with_slot(mut self, row: usize, place: usize, slot: Slot) -> Self {
        self.rows[row].slots[place] = slot;
        self
    }

    pub fn with_slot_count(mut self, slots: u64) -> Self {
        self.slots = slots;
        self
    }

    pub fn with_tail(mut self, tail: &[u64]) -> Self {
        self.tail = tail.to_vec();
        self
    }

    /// The words of a `history` line.
    pub fn history_words(&self) -> Vec<u64> {
        [&[self.slots], &self.row_words()[..]].concat()
    }

    /// The words of a `mapping` or `training` line.
    pub fn model_words(&self) -> Vec<u64> {
        let counts = [self.slots, self.dimensions.len() as u64];
        [&counts, &self.dimensions.concat()[..], &self.row_words()].concat()
    }

    /// The words of the history alone.
    pub fn row_words(&self) -> Vec<u64> {
        let rows = self.rows.iter().flat_map(Row::words);
        rows.chain(self.tail.iter().copied()).collect()
    }
}

pub fn slot(id: u64, distribution: &DistributionWords, taken: u64) -> Slot {
    let mut slot = ABSENT;
    slot[0] = id;
    slot[KIND..TAKEN].copy_from_slice(distribution);
    slot[TAKEN] = taken;
    slot
}

/// The distribution's words of a slot.
pub fn distribution_of(slot: &Slot) -> DistributionWords {
    std::array::from_fn(|place| slot[KIND + place])
}

pub fn full_row(
    rng: &mut SplitMix64,
    number: u64,
    slots: usize,
    parameters: &[Parameter],
    value: Values,
) -> Row {
    let objective = uniform(rng, -10.0, 10.0).to_bits();
    let entries = parameters.iter().map(|p| p.slot(value(rng, &p.distribution)));
    let mut list: Vec<Slot> = entries.collect();
    list.resize(slots, ABSENT);
    Row { head: [number, number % 4, objective], slots: reordered(rng, list) }
}

/// Twenty of all kinds, the first two equal, with ids at both ends and about the middle.
pub fn parameters() -> Vec<Parameter> {
    let first = [
        (9, int(0, 9, false, None)),
        (4, int(0, 9, false, None)),
        (0, float(0.0, 1.0, false, None)),
        (u64::MAX, float(1e-5, 0.1, true, None)),
        (1 << 63, choice(5)),
        ((1 << 63) - 1, int(1, 1000, true, Some(7))),
        (3, float(-0.0, 0.35, false, Some(0.01))),
        (u64::MAX - 1, choice(5)),
    ];
    let distributions = first.map(|(_, d)| d);
    let others = (0..12).map(|number| (100 - number, distributions[number as usize % 8]));
    first
        .into_iter()
        .chain(others)
        .map(|(id, distribution)| Parameter { id, distribution })
        .collect()
}
