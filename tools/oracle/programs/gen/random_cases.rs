//! Random cases of `history`, `mapping` and `training`: mostly small and accepted.

use crate::cases::{
    ABSENT, Case, KIND, OBJECTIVE, Parameter, Row, STATE, Slot, TAKEN, distribution_of,
};
use crate::distributions::{EDGE_WORDS, is_well_formed};
use crate::equal::{near_copy, with_other_zeros};
use crate::floats::{signed_with_exponent, uniform};
use crate::lists::reordered;
use crate::random_distributions::{self, damaged};
use crate::random_fits::odd_float;
use crate::values::taken_value;
use history::{MAX_OBJECTIVE, RECENT_ROWS};
use records::DistributionWords;
use splitmix::SplitMix64;

/// The most dimensions that are taken.
const MAX_DIMENSIONS: usize = 20;

/// Ids at both ends and about the middle.
const EDGE_IDS: &[u64] =
    &[0, 1, 2, (1 << 32) - 1, 1 << 32, (1 << 63) - 1, 1 << 63, u64::MAX - 1, u64::MAX];

/// Numbers of slots or of dimensions that are out of range.
const ODD_COUNTS: &[u64] = &[0, 21, 22, 1 << 32, 1 << 61, 1 << 63, u64::MAX];

pub fn history(rng: &mut SplitMix64) -> Vec<u64> {
    let words = case(rng).history_words();
    with_wrong_count(rng, words, 1)
}

pub fn model(rng: &mut SplitMix64) -> Vec<u64> {
    let words = case(rng).model_words();
    with_wrong_count(rng, words, 2)
}

/// Now and then one of the counts before the other words is wrong, or there is a word too few or
/// too many.
fn with_wrong_count(rng: &mut SplitMix64, mut words: Vec<u64>, counts: u64) -> Vec<u64> {
    match rng.below(128) {
        0 => {
            let count = rng.below(counts) as usize;
            words[count] = rng.pick(ODD_COUNTS);
        }
        1 => {
            let count = rng.below(counts) as usize;
            words[count] = words[count].wrapping_add(rng.pick(&[1, u64::MAX]));
        }
        2 => words.push(rng.sized(64)),
        3 => words.truncate(words.len().max(2) - 1),
        _ => {}
    }
    words
}

/// The history is damaged in about three cases of ten, in some of them twice.
fn case(rng: &mut SplitMix64) -> Case {
    let (slots, rows) = counts(rng);
    let parameters = parameters(rng, slots);
    let rows: Vec<Row> = (0..rows).map(|number| row(rng, number, slots, &parameters)).collect();
    let dimensions = dimensions(rng, &rows);
    let mut case = Case { slots: slots as u64, dimensions, rows, tail: vec![] };
    if rng.below(16) < 5 {
        damage(rng, &mut case.rows, &parameters);
        if rng.below(4) == 0 {
            damage(rng, &mut case.rows, &parameters);
        }
    }
    case
}

/// The numbers of slots and of rows. Long histories and many slots are rare.
fn counts(rng: &mut SplitMix64) -> (usize, u64) {
    match rng.below(128) {
        0 => (1 + rng.below(3) as usize, 95 + rng.below(16)),
        1 | 2 => (1 + rng.below(20) as usize, rng.below(4)),
        3..=8 => (1 + rng.below(6) as usize, 0),
        9..=40 => (1 + rng.below(6) as usize, 1 + rng.below(8)),
        _ => (1 + rng.below(4) as usize, 1 + rng.below(6)),
    }
}

/// At most one more than there are slots, and often several with one distribution.
fn parameters(rng: &mut SplitMix64, slots: usize) -> Vec<Parameter> {
    let count = match rng.below(8) {
        0 => slots + 1,
        1..=3 => slots,
        _ => 1 + rng.below(slots as u64) as usize,
    };
    let variety = 1 + rng.below(count as u64);
    let pool: Vec<_> = (0..variety).map(|_| random_distributions::well_formed(rng)).collect();
    let ids = ids(rng, count);
    ids.into_iter().map(|id| Parameter { id, distribution: rng.pick(&pool) }).collect()
}

/// Different ones.
pub fn ids(rng: &mut SplitMix64, count: usize) -> Vec<u64> {
    let mut ids = Vec::with_capacity(count);
    while ids.len() < count {
        let id = random_id(rng);
        if !ids.contains(&id) {
            ids.push(id);
        }
    }
    ids
}

fn random_id(rng: &mut SplitMix64) -> u64 {
    match rng.below(4) {
        0 => rng.pick(EDGE_IDS),
        1 => rng.next_word(),
        _ => rng.below(30),
    }
}

/// The parameters in a random order, as many as there are slots for; in some rows some are missing.
fn row(rng: &mut SplitMix64, number: u64, slots: usize, parameters: &[Parameter]) -> Row {
    let gaps = rng.below(8) == 0;
    let mut entries: Vec<Slot> = vec![];
    for parameter in reordered(rng, parameters) {
        if entries.len() < slots && !(gaps && rng.below(3) == 0) {
            entries.push(entry(rng, parameter));
        }
    }
    entries.resize(slots, ABSENT);
    Row { head: head(rng, number), slots: reordered(rng, entries) }
}

/// The distribution may have other zeros than in other rows.
pub fn entry(rng: &mut SplitMix64, parameter: &Parameter) -> Slot {
    let taken = taken_value(rng, &parameter.distribution);
    let d = parameter.distribution;
    let distribution = if rng.below(8) == 0 { with_other_zeros(d) } else { d };
    Parameter { distribution, ..*parameter }.slot(taken)
}

pub fn head(rng: &mut SplitMix64, number: u64) -> [u64; 3] {
    let trial = if rng.below(4) == 0 { rng.next_word() } else { number };
    let objective = match rng.below(16) {
        0 => rng.pick(&[0.0, -0.0, MAX_OBJECTIVE, -MAX_OBJECTIVE]),
        1 | 2 => f64::from_bits(signed_with_exponent(rng, -1022, 51)),
        3 => rng.between(-3, 3) as f64,
        _ => uniform(rng, -10.0, 10.0),
    };
    [trial, rng.below(4), objective.to_bits()]
}

/// The distributions of some or all entries of the first recent row in a random order, now and
/// then with one that it may not have, with all twice or with a malformed one.
fn dimensions(rng: &mut SplitMix64, rows: &[Row]) -> Vec<DistributionWords> {
    let first = rows.get(rows.len().saturating_sub(RECENT_ROWS));
    let slots = first.iter().flat_map(|row| &row.slots);
    let mut list: Vec<_> = slots.filter(|slot| slot[KIND] != 0).map(distribution_of).collect();
    if rng.below(2) == 0 && list.len() > 1 {
        list.retain(|_| rng.below(4) > 0);
    }
    match rng.below(32) {
        0 | 1 => list.push(random_distributions::well_formed(rng)),
        2 => list.extend(list.clone()),
        3 => list.push(random_distributions::distribution(rng)),
        4 => list = vec![random_distributions::well_formed(rng); rng.below(23) as usize],
        _ => list.truncate(MAX_DIMENSIONS),
    }
    if rng.below(64) == 0 && !list.is_empty() {
        let place = rng.below(list.len() as u64) as usize;
        list[place] = damaged(rng, list[place]);
    }
    let change = |d| if rng.below(4) == 0 { with_other_zeros(d) } else { d };
    let list: Vec<_> = list.into_iter().map(change).collect();
    reordered(rng, list)
}

/// One row is changed, an older one of a long history as often as a recent one.
pub fn damage(rng: &mut SplitMix64, rows: &mut [Row], parameters: &[Parameter]) {
    let count = rows.len() as u64;
    let older = count.saturating_sub(RECENT_ROWS as u64);
    let row = match (older, count) {
        (_, 0) => return,
        (1.., _) if rng.below(2) == 0 => rng.below(older),
        _ => older + rng.below(count - older),
    };
    damage_row(rng, &mut rows[row as usize], parameters);
}

fn damage_row(rng: &mut SplitMix64, row: &mut Row, parameters: &[Parameter]) {
    let place = rng.below(row.slots.len() as u64) as usize;
    let other = rng.pick(&row.slots);
    let slot = &mut row.slots[place];
    match rng.below(10) {
        0 => row.head[STATE] = rng.pick(&[4, 5, 255, 1 << 32, 1 << 63, u64::MAX]),
        1 => row.head[OBJECTIVE] = odd_float(rng, MAX_OBJECTIVE).to_bits(),
        2 => slot[TAKEN] = rng.pick(EDGE_WORDS),
        3 | 4 => damage_word(rng, slot),
        5 => *slot = other,
        6 => slot[0] = rng.pick(parameters).id,
        7 | 8 => change_distribution(rng, slot),
        _ => {
            let parameter = rng.pick(parameters);
            *slot = entry(rng, &parameter);
        }
    }
}

/// Any word of a slot, changed a little or altogether.
fn damage_word(rng: &mut SplitMix64, slot: &mut Slot) {
    let place = rng.below(slot.len() as u64) as usize;
    slot[place] = match rng.below(4) {
        0 => slot[place] ^ 1 << rng.below(64),
        1 => slot[place].wrapping_add(rng.pick(&[1, u64::MAX])),
        _ => rng.pick(EDGE_WORDS),
    };
}

/// To one that is well-formed and hardly differs, or to any other, with a value that may be taken.
fn change_distribution(rng: &mut SplitMix64, slot: &mut Slot) {
    let old = distribution_of(slot);
    if !is_well_formed(&old) {
        return;
    }
    let near = near_copy(rng, old);
    let d = if rng.below(4) == 0 { random_distributions::well_formed(rng) } else { near };
    let taken = taken_value(rng, &d);
    *slot = Parameter { id: slot[0], distribution: d }.slot(taken);
}
