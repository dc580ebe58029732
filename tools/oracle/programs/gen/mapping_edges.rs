//! Edges of `mapping` and `training`: the dimensions beside a history.

use crate::cases::{ABSENT, Case, Parameter, STATE, Slot, parameters, slot};
use crate::distributions::{EPSILON, choice, float, int, malformed, well_formed};
use crate::floats::around;
use crate::history_edges::{joined, large, one_row, sizes, small};
use crate::lists::{alternated, distinct, shuffled};
use crate::values::{edge_values, is_taken};
use history::RECENT_ROWS;
use records::{CHOICE, DistributionWords, FLOAT};

pub fn edges() -> Vec<Vec<u64>> {
    let lists = [
        equal_distributions(),
        missing_ids(),
        unmatched(),
        choices(),
        zeros(),
        one_point(),
        dimension_counts(),
        first_rows(),
        malformed_dimensions(),
        each_distribution(),
    ];
    let [a, b, c, d, e, f, g, h, i, j] = lists.map(|cases| words(&cases));
    let dimensions = alternated([a, b, c, d, e, f, g, h, i, j, wrong_counts()]);
    let small = alternated([dimensions, words(&small())]);
    distinct([words(&sizes(&[1, 2])), small, words(&large())].concat())
}

/// Good histories and good dimensions, about which of them belong together.
pub fn mappings() -> Vec<Case> {
    alternated([
        equal_distributions(),
        unmatched(),
        choices(),
        zeros(),
        one_point(),
        first_rows(),
        missing_ids(),
        each_distribution(),
    ])
}

fn words(cases: &[Case]) -> Vec<Vec<u64>> {
    cases.iter().map(Case::model_words).collect()
}

fn tens() -> DistributionWords {
    int(0, 9, false, None)
}

/// One distribution under several ids, in every order of slots, with fewer and more dimensions.
/// Values differ, so that they tell the ids. The first is the sample book's.
fn equal_distributions() -> Vec<Case> {
    let pairs = [[9, 4], [4, 9], [0, 1 << 63], [u64::MAX, 0], [1 << 63, (1 << 63) - 1]];
    let lists = pairs.map(|ids| ids.to_vec()).into_iter().chain(orders([9, 4, u64::MAX]));
    let of_list = |ids: Vec<u64>| {
        let slots: Vec<Slot> =
            (1..).zip(&ids).map(|(taken, &id)| slot(id, &tens(), taken)).collect();
        let reversed: Vec<Slot> = slots.iter().rev().copied().collect();
        let case = joined(one_row(&slots), one_row(&reversed));
        let counts = [ids.len(), ids.len() - 1, ids.len() + 1];
        counts.map(|count| case.clone().with_dimensions(&vec![tens(); count]))
    };
    lists.flat_map(of_list).collect()
}

fn orders([a, b, c]: [u64; 3]) -> [Vec<u64>; 6] {
    [[a, b, c], [a, c, b], [b, a, c], [b, c, a], [c, a, b], [c, b, a]].map(|ids| ids.to_vec())
}

/// Four rows of two parameters, of which any may be missing in any row.
fn missing_ids() -> Vec<Case> {
    let (whole, unit) = (tens(), float(0.0, 1.0, false, None));
    let row = |number: u64, present: u64| {
        let first = slot(9, &whole, number);
        let second = slot(4, &unit, (number as f64 / 4.0).to_bits());
        let slots = [(1, first), (2, second)];
        slots.map(|(bit, slot)| if present & bit == 0 { ABSENT } else { slot })
    };
    let case = |mask: u64| {
        let rows = (0..4).map(|number| one_row(&row(number, mask >> (2 * number) & 3)));
        rows.reduce(joined).expect("four rows").with_dimensions(&[unit, whole])
    };
    shuffled((0..256).map(case))
}

/// Dimensions that no entry equals, some of them nearly, and more dimensions than entries.
fn unmatched() -> Vec<Case> {
    let unit = float(0.0, 1.0, false, None);
    let nothing = [
        int(0, 10, false, None),
        int(0, 9, false, Some(1)),
        float(0.0, 9.0, false, None),
        [FLOAT, 0, 9, 0, 0, 0],
        choice(9),
        float(0.0, 1.0, false, Some(1.0)),
        float(0.0, 1.0_f64.next_up(), false, None),
    ];
    let of_nothing = nothing.into_iter().flat_map(|other| {
        [vec![other], vec![other, tens()], vec![tens(), other], vec![tens(), tens(), other, unit]]
    });
    let more = [vec![tens(); 3], vec![unit, unit], vec![unit, tens(), unit, tens()]];
    let lists = more.into_iter().chain(of_nothing);
    let case = Case::of(4, &parameters()[..3], 3);
    let cases = lists.map(|dimensions| case.clone().with_dimensions(&dimensions));
    let empty = one_row(&[ABSENT; 2]).with_dimensions(&[unit]);
    cases.chain([empty]).collect()
}

/// Choices, which take ids from each other but no column, and are missing in the second row.
fn choices() -> Vec<Case> {
    let (five, three, unit) = (choice(5), choice(3), float(0.0, 1.0, false, None));
    let half = slot(2, &unit, 0.5_f64.to_bits());
    let first = [slot(8, &five, 4), half, slot(1, &five, 0), slot(5, &three, 1)];
    let case = joined(one_row(&first), one_row(&[ABSENT, ABSENT, half, ABSENT]));
    let lists: [&[DistributionWords]; 9] = [
        &[five, unit, five],
        &[five, five, five, unit],
        &[three, five, unit],
        &[five],
        &[choice(7), unit],
        &[unit, choice(7)],
        &[choice(7)],
        &[five, three, five, five],
        &[],
    ];
    lists.map(|dimensions| case.clone().with_dimensions(dimensions)).to_vec()
}

/// Zeros of both signs at an end in each row and in the dimension, and as values.
fn zeros() -> Vec<Case> {
    let signs = [0.0, -0.0];
    let ranges: [fn(f64) -> DistributionWords; 3] = [
        |zero| float(zero, 1.0, false, None),
        |zero| float(-1.0, zero, false, Some(0.5)),
        |zero| float(zero, -zero, false, None),
    ];
    let of_signs = |[first, second, dimension, taken]: [f64; 4]| {
        ranges.map(|range| {
            let rows = [(first, taken), (second, -taken)]
                .map(|(zero, taken)| one_row(&[slot(9, &range(zero), taken.to_bits())]));
            let [first, second] = rows;
            joined(first, second).with_dimensions(&[range(dimension)])
        })
    };
    let all = (0..16_usize).map(|bits| [0, 1, 2, 3].map(|bit| signs[bits >> bit & 1]));
    shuffled(all.flat_map(of_signs))
}

/// Ranges of one point, shorter than the shortest that is normalised, and hardly longer.
fn one_point() -> Vec<Case> {
    let points = [int(7, 7, false, None), int(7, 7, true, None), float(3.5, 3.5, true, None)];
    let at_zero = around(1e-15).map(|high| float(0.0, high, false, None));
    let at_one = (3..=6).flat_map(|units| {
        [false, true].map(|log| float(1.0, 1.0 + f64::from(units) * EPSILON, log, None))
    });
    let ranges = points.into_iter().chain(at_zero).chain(at_one);
    ranges.map(|d| two_entries(d, &[d[1], d[2], d[2], 3])).collect()
}

/// A distribution under two ids in two rows, and as both dimensions. Values that may not be taken
/// are replaced by the low end.
fn two_entries(d: DistributionWords, taken: &[u64; 4]) -> Case {
    let [a, b, e, f] = taken.map(|word| if is_taken(&d, word) { word } else { d[1] });
    let rows = [[slot(9, &d, a), slot(4, &d, b)], [slot(4, &d, e), slot(9, &d, f)]];
    let [first, second] = rows.map(|slots| one_row(&slots));
    joined(first, second).with_dimensions(&[d, d])
}

/// Every well-formed distribution, with its values in turn.
fn each_distribution() -> Vec<Case> {
    let of_distribution = |d: DistributionWords| {
        let low = if d[0] == CHOICE { 0 } else { d[1] };
        let values: Vec<u64> = edge_values(&d).into_iter().filter(|&v| is_taken(&d, v)).collect();
        let fours =
            values.chunks(4).map(|list| std::array::from_fn(|i| *list.get(i).unwrap_or(&low)));
        fours.map(|list| two_entries(d, &list)).collect::<Vec<_>>()
    };
    shuffled(well_formed().into_iter().flat_map(of_distribution))
}

/// From none to 20 and beyond, of six slots and of 20.
fn dimension_counts() -> Vec<Case> {
    let all: Vec<DistributionWords> = parameters().iter().map(|p| p.distribution).collect();
    let list = |count: usize| all.iter().copied().cycle().take(count).collect::<Vec<_>>();
    let with_slots = |slots, counts: &[usize]| {
        let cases = counts.iter().map(|&count| Case::fixed(slots, 1).with_dimensions(&list(count)));
        cases.collect::<Vec<_>>()
    };
    let none = Case::fixed(6, 0);
    let without_rows = [0, 1, 20, 21].map(|count| none.clone().with_dimensions(&list(count)));
    let bad = Case::fixed(6, 1).with_head_word(0, STATE, 4);
    let beyond = [20, 21].map(|count| bad.clone().with_dimensions(&list(count)));
    [
        with_slots(20, &[19, 20, 21]),
        with_slots(6, &[0, 20, 21, 40, 22]),
        without_rows.to_vec(),
        beyond.to_vec(),
        with_slots(6, &(1..20).collect::<Vec<_>>()),
    ]
    .concat()
}

/// Long histories whose first row, or first recent row, has another id than the others, or none.
fn first_rows() -> Vec<Case> {
    let parameter = Parameter { id: 9, distribution: tens() };
    let changed = |rows, row, slot| Case::of(1, &[parameter], rows).with_slot(row, 0, slot);
    let other = slot(4, &tens(), 5);
    let long = RECENT_ROWS + 1;
    vec![
        changed(long, 0, other),
        changed(long, 1, other),
        changed(long, 0, ABSENT),
        changed(long, 1, ABSENT),
        changed(RECENT_ROWS, 0, other),
        changed(RECENT_ROWS, 1, other),
        changed(long, 50, ABSENT),
    ]
}

/// Each malformed distribution alone, before and after good ones, some with a bad history too.
fn malformed_dimensions() -> Vec<Case> {
    let bad = Case::fixed(2, 1).with_head_word(0, STATE, 4);
    let histories = [Case::fixed(2, 2), bad.clone(), bad.with_tail(&[0]), Case::fixed(1, 0)];
    let lists = malformed().into_iter().enumerate().map(|(number, d)| match number % 3 {
        0 => vec![d],
        1 => vec![tens(), d],
        _ => vec![d, tens(), tens()],
    });
    histories
        .into_iter()
        .cycle()
        .zip(lists)
        .map(|(case, dimensions)| case.with_dimensions(&dimensions))
        .collect()
}

/// Numbers of dimensions that are one off, lines that end before all dimensions, and huge numbers,
/// whose words would come to few if they wrapped around.
fn wrong_counts() -> Vec<Vec<u64>> {
    let case = Case::fixed(2, 1).model_words();
    let with_count = |count| [&[case[0], count], &case[2..]].concat();
    let counts = [0, 1, 3, 4, 5, 6, 20, 21, 1 << 32].map(with_count);
    let short = [0, 1, 2, 3, 7, 8, 13, 14].map(|length| case[..length].to_vec());
    let sixth = u64::MAX / 6;
    let huge = [1 << 63, 1 << 62, sixth, sixth + 1, u64::MAX, 1 << 61, 3 << 61];
    let huge = huge.into_iter().flat_map(|count| {
        [2, 3, 4, 8, 13].map(|length| {
            let words = [&[1, count][..], &case[2..]].concat();
            words[..length].to_vec()
        })
    });
    counts.into_iter().chain(short).chain(huge).collect()
}
