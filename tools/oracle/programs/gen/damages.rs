//! Single changes of a row that are refused, and pairs of them.

use crate::cases::{ABSENT, Case, KIND, OBJECTIVE, Parameter, Row, STATE, Slot, TAKEN, slot};
use crate::distributions::{choice, float, int};
use crate::lists::{distinct, shuffled};
use history::{MAX_OBJECTIVE, RECENT_ROWS};
use records::{INT, LEAST_TAKEN, MAX_INT};

/// A change of a row of two slots, the first of them present and of the parameter below.
type Damage = fn(&mut Row);

const PARAMETER: Parameter = Parameter { id: 9, distribution: [INT, 0, 9, 0, 0, 0] };

/// A first and a second one for each number from 4 to 7.
const FIRST: [Damage; 4] = [
    |row| row.head[STATE] = 4,
    |row| row.slots[1] = with_word(ABSENT, 0, 1),
    |row| row.slots[1] = row.slots[0],
    |row| row.slots[0] = unequal_slot(),
];
const SECOND: [Damage; 4] = [
    |row| row.head[OBJECTIVE] = f64::NAN.to_bits(),
    |row| row.slots[0][KIND] = 4,
    |row| row.slots[1] = unequal_slot(),
    |row| row.slots[0][KIND + 4..TAKEN].fill(1),
];

/// More for 4 and 5.
const OTHERS: [Damage; 11] = [
    |row| row.slots[1] = slot(4, &choice(5), 5),
    |row| row.head[OBJECTIVE] = MAX_OBJECTIVE.to_bits() + 1,
    |row| row.slots[0][TAKEN] = MAX_INT as u64 + 1,
    |row| row.head[OBJECTIVE] = f64::NEG_INFINITY.to_bits(),
    |row| row.slots[1] = with_word(ABSENT, TAKEN, 1 << 63),
    |row| row.head[STATE] = u64::MAX,
    |row| row.slots[0][KIND] = 0,
    |row| row.slots[0][KIND + 3] = 2,
    |row| row.slots[0][KIND + 5] = 1 << 63,
    |row| row.slots[1] = log_slot(f64::NAN),
    |row| row.slots[1] = log_slot(LEAST_TAKEN.next_down()),
];

/// The same id with another distribution.
fn unequal_slot() -> Slot {
    Parameter { distribution: int(0, 10, false, None), ..PARAMETER }.slot(1)
}

/// Of another id and on log scale.
fn log_slot(taken: f64) -> Slot {
    slot(4, &float(0.5, 2.0, true, None), taken.to_bits())
}

pub fn with_word(mut slot: Slot, place: usize, word: u64) -> Slot {
    slot[place] = word;
    slot
}

/// Rows of two slots, the second one absent.
fn good(rows: usize) -> Case {
    let mut case = Case::of(2, &[PARAMETER], rows);
    case.rows.iter_mut().for_each(|row| row.slots.sort_by_key(|slot| slot[KIND] == 0));
    case
}

fn damaged(mut case: Case, row: usize, damage: Damage) -> Case {
    damage(&mut case.rows[row]);
    case
}

/// Each damage in each row of three, all damages once before any comes again.
pub fn alone() -> Vec<Case> {
    let in_rows = |shift| {
        let rows = (0..3).cycle().skip(shift);
        rows.zip(all()).map(|(row, damage)| damaged(good(3), row, damage))
    };
    (0..3).flat_map(in_rows).collect()
}

fn all() -> Vec<Damage> {
    [&FIRST[..], &SECOND, &OTHERS].concat()
}

/// Each first damage with each second one: in an earlier, in the same and in a later row. A number
/// in the last row and the next number in the first come first.
pub fn pairs() -> Vec<Case> {
    let pair = |first: usize, second: usize, [row, other]: [usize; 2]| {
        damaged(damaged(good(3), row, FIRST[first]), other, SECOND[second])
    };
    let next = (0..3).map(|first| pair(first, first + 1, [2, 0]));
    let numbers = (0..16).map(|number| (number / 4, number % 4));
    let rest = numbers
        .flat_map(|(first, second)| [[0, 2], [2, 0], [1, 1]].map(|rows| pair(first, second, rows)));
    distinct(next.chain(shuffled(rest)).collect())
}

/// In a row before the recent ones, where it does not matter, and in the next, where it does.
pub fn in_long_histories() -> Vec<Case> {
    let of_damage = |damage| [0, 1].map(|row| damaged(good(RECENT_ROWS + 1), row, damage));
    FIRST.into_iter().flat_map(of_damage).collect()
}

/// In the last row that is not read and in the first and the last that are.
pub fn at_the_boundary() -> Vec<Case> {
    let of_damage = |damage| {
        let longer = [29, 30, 129].map(|row| damaged(good(RECENT_ROWS + 30), row, damage));
        let longest_read = [0, 99].map(|row| damaged(good(RECENT_ROWS), row, damage));
        let one_longer = [0, 1, 100].map(|row| damaged(good(RECENT_ROWS + 1), row, damage));
        [&longer[..], &longest_read, &one_longer].concat()
    };
    all().into_iter().flat_map(of_damage).collect()
}
