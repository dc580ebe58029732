//! Edges of `history`, and of `mapping` and `training` as far as the history goes.

use crate::cases::{ABSENT, Case, KIND, OBJECTIVE, Parameter, STATE, Slot, TAKEN, slot};
use crate::damages::{self, with_word};
use crate::distributions::{
    EDGE_WORDS, TINY, choice, float, int, malformed, well_formed, with_each_well_formed,
};
use crate::equal::{changed_copies, with_other_zeros};
use crate::floats::around;
use crate::lists::{alternated, distinct, shuffled};
use crate::values::{edge_values, taken_value};
use history::{HEAD_WORDS, MAX_OBJECTIVE, MAX_SLOTS, RECENT_ROWS};
use records::DistributionWords;
use splitmix::SplitMix64;

pub fn edges() -> Vec<Vec<u64>> {
    let cases = [sizes(&[1, 2]), small(), large()].concat();
    let lines = cases.iter().map(Case::history_words);
    distinct(lines.chain([vec![]]).collect())
}

/// Every number of rows about which something changes, as far as a line can hold them.
pub fn sizes(slot_counts: &[usize]) -> Vec<Case> {
    let rows = [0, 1, 2, 99, 100, 101, 130];
    let pairs = slot_counts.iter().flat_map(|&slots| rows.map(|rows| (slots, rows)));
    pairs.filter(|pair| *pair != (4, 130)).map(|(slots, rows)| Case::fixed(slots, rows)).collect()
}

/// All but a few of them have a few rows.
pub fn small() -> Vec<Case> {
    alternated([
        heads(),
        (1..=MAX_SLOTS as usize).map(|slots| Case::fixed(slots, 2)).collect(),
        damages::alone(),
        damages::pairs(),
        bad_slots(),
        ids(),
        two_distributions(),
        slot_counts(),
        lengths(),
        [unread_rows(), damages::in_long_histories()].concat(),
        taken_values(),
        replaced_words(),
    ])
}

/// The other sizes, the largest lines, and damage about the first recent row.
pub fn large() -> Vec<Case> {
    let full = [(20, 22), (19, 23), (11, 40), (6, 72)];
    let full = full.map(|(slots, rows)| Case::fixed(slots, rows)).to_vec();
    [sizes(&[3, 4]), full, damages::at_the_boundary()].concat()
}

/// States and objectives at their limits and beyond, and trial numbers, each in another row.
fn heads() -> Vec<Case> {
    let limits = [MAX_OBJECTIVE, -MAX_OBJECTIVE].into_iter().flat_map(around);
    let odd = [f64::NAN, f64::INFINITY, f64::NEG_INFINITY, f64::MAX, -f64::MAX];
    let plain = [0.0, -0.0, TINY, -1e-300];
    let nans = [f64::INFINITY.to_bits() + 1, u64::MAX];
    let objectives = limits.chain(odd).chain(plain).map(f64::to_bits).chain(nans);
    let states = [0, 1, 2, 3, 4, 5, 256, 1 << 32, 1 << 63, u64::MAX, 1.0_f64.to_bits()];
    let words = alternated([
        states.map(|word| (STATE, word)).to_vec(),
        objectives.map(|word| (OBJECTIVE, word)).collect(),
        EDGE_WORDS.iter().map(|&word| (0, word)).collect(),
    ]);
    let rows = (0..3).cycle();
    rows.zip(words)
        .map(|(row, (place, word))| Case::fixed(1, 3).with_head_word(row, place, word))
        .collect()
}

/// Absent slots that are not all zero and malformed distributions, each in another place.
fn bad_slots() -> Vec<Case> {
    let nonzero = (0..=TAKEN)
        .filter(|&place| place != KIND)
        .flat_map(|place| [1, 1 << 63].map(|word| with_word(ABSENT, place, word)));
    let of_malformed = malformed().into_iter().map(|d| slot(5, &d, d[1]));
    let slots = alternated([nonzero.collect(), of_malformed.collect()]);
    let places = [(0, 0), (1, 1), (0, 1), (1, 0)].into_iter().cycle();
    places
        .zip(slots)
        .map(|((row, place), slot)| Case::fixed(2, 2).with_slot(row, place, slot))
        .collect()
}

/// A good slot of each kind and an absent one with each word in turn replaced by each edge word.
fn replaced_words() -> Vec<Case> {
    let originals = [
        ABSENT,
        slot(9, &float(0.5, 2.0, true, None), 1.0_f64.to_bits()),
        slot(9, &float(0.0, 0.35, false, Some(0.01)), 0.25_f64.to_bits()),
        slot(9, &int(10, 20, false, Some(4)), 14),
        slot(9, &choice(5), 3),
    ];
    let slots = originals.into_iter().flat_map(|original| {
        (0..original.len()).flat_map(move |place| {
            EDGE_WORDS.iter().map(move |&word| with_word(original, place, word))
        })
    });
    shuffled(slots.map(|slot| one_row(&[slot])))
}

/// An id twice or three times in a row, some with an absent slot between, in a row and the next,
/// and beside absent slots, whose id is no id.
fn ids() -> Vec<Case> {
    let d = int(0, 9, false, None);
    let (log, other) = (float(0.5, 2.0, true, None), choice(5));
    let of_id = |id| {
        let (a, b) = (slot(id, &d, 3), slot(id, &d, 4));
        let (l, c) = (slot(id, &log, 1.0_f64.to_bits()), slot(id, &other, 1));
        [[a, ABSENT, b], [ABSENT, a, a], [a, l, ABSENT], [c, b, l], [ABSENT, a, ABSENT]]
    };
    let rows = [0, 9, 1 << 63, u64::MAX].into_iter().flat_map(of_id);
    let alone = rows.clone().map(|slots| one_row(&slots));
    let second = rows.map(|slots| {
        let first = one_row(&[slot(7, &d, 0), slot(0, &d, 9), ABSENT]);
        joined(first, one_row(&slots))
    });
    let none = one_row(&[ABSENT; 3]);
    alternated([alone.collect(), second.collect(), vec![none.clone(), joined(none.clone(), none)]])
}

/// Two distributions that are equal but for zeros, or nearly equal: under one id in two rows, under
/// two ids in one row, and one of them in the row, the other as the dimension.
fn two_distributions() -> Vec<Case> {
    let same = well_formed().into_iter().map(|d| (d, with_other_zeros(d)));
    let changed =
        well_formed().into_iter().flat_map(|d| changed_copies(d).map(move |copy| (d, copy)));
    let pairs = alternated([same.collect(), shuffled(changed)]);
    let of_pair = |(first, second): (DistributionWords, DistributionWords)| {
        let slot = entry(9, first);
        let one_id = joined(one_row(&[slot, ABSENT]), one_row(&[ABSENT, entry(9, second)]));
        let two_ids = one_row(&[slot, entry(4, second)]);
        [
            one_id.with_dimensions(&[second]),
            two_ids.with_dimensions(&[first, second]),
            one_row(&[slot]).with_dimensions(&[second]),
        ]
    };
    pairs.into_iter().flat_map(of_pair).collect()
}

/// A slot with some value that may be taken.
fn entry(id: u64, distribution: DistributionWords) -> Slot {
    let mut rng = SplitMix64::for_line(id, distribution[1]);
    slot(id, &distribution, taken_value(&mut rng, &distribution))
}

/// Every well-formed distribution with values on both sides of the Taken rule's limits.
fn taken_values() -> Vec<Case> {
    let calls = with_each_well_formed(|d| edge_values(d).into_iter().map(|v| [v]).collect());
    calls
        .into_iter()
        .map(|([taken], distribution)| {
            let parameter = Parameter { id: 9, distribution };
            one_row(&[parameter.slot(taken)]).with_dimensions(&[distribution])
        })
        .collect()
}

/// Slots that are not 1 to 20, with rows of some other number, with none, and with damaged ones.
/// With some the words of a row would come to few if they wrapped around.
fn slot_counts() -> Vec<Case> {
    let counts = [0, 21, 22, 1 << 32 | 1, 1 << 61, (1 << 61) + 1, 1 << 63, u64::MAX];
    let bad = Case::fixed(1, 1).with_head_word(0, STATE, 4);
    let others = [
        Case::fixed(1, 0),
        Case::fixed(1, 1),
        Case::fixed(1, 0).with_tail(&[0; HEAD_WORDS]),
        Case::fixed(1, 0).with_tail(&[1]),
        Case::of(21, &[], 1),
        bad,
    ];
    let of_count = |count| others.clone().map(|case| case.with_slot_count(count));
    counts.into_iter().flat_map(of_count).collect()
}

/// Words that are no whole rows, good and bad ones, and rows of another number of slots; 19 rows
/// of one slot are as many words as 11 of two.
fn lengths() -> Vec<Case> {
    let of_size = |(slots, rows): (usize, usize)| {
        let case = Case::fixed(slots, rows);
        let row = Case::fixed(slots, 1).rows[0].words();
        let lengths = [1, 2, HEAD_WORDS, row.len() - 1];
        lengths.map(|length| case.clone().with_tail(&row[..length])).to_vec()
    };
    let sizes = [(1, 0), (1, 1), (2, 1), (1, 2), (3, 2), (20, 1), (4, 5)];
    let bad = Case::fixed(1, 2).with_head_word(0, STATE, 4).with_tail(&[4; HEAD_WORDS]);
    let others = [(1, 19, 2), (2, 11, 1), (1, 1, 2), (2, 1, 1), (3, 1, 20)];
    let others = others.map(|(slots, rows, asked)| Case::fixed(slots, rows).with_slot_count(asked));
    let long = [(1, RECENT_ROWS), (1, RECENT_ROWS + 1)].into_iter().flat_map(of_size);
    let short = sizes.into_iter().flat_map(of_size).collect();
    [alternated([short, [&[bad], &others[..]].concat()]), long.collect()].concat()
}

/// Random words in all rows before the recent ones.
fn unread_rows() -> Vec<Case> {
    let counts = [(1, RECENT_ROWS + 1), (1, RECENT_ROWS + 30)];
    counts.map(|(slots, rows)| with_random_words(Case::fixed(slots, rows))).to_vec()
}

/// Those before the recent ones.
pub fn with_random_words(mut case: Case) -> Case {
    let mut rng = SplitMix64::for_line(3, case.rows.len() as u64);
    let older = case.rows.len() - RECENT_ROWS;
    for row in &mut case.rows[..older] {
        row.head = row.head.map(|_| rng.next_word());
        row.slots.iter_mut().for_each(|slot| *slot = slot.map(|_| rng.next_word()));
    }
    case
}

/// A good head and these slots, without dimensions.
pub fn one_row(slots: &[Slot]) -> Case {
    let mut case = Case::of(slots.len(), &[], 1);
    case.rows[0].slots = slots.to_vec();
    case
}

/// The rows of both, in order.
pub fn joined(mut first: Case, second: Case) -> Case {
    first.rows.extend(second.rows);
    first
}
