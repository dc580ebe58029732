//! Edges of `run` about new trials with a model, and about those whose fit is refused.

use crate::cases::{ABSENT, Case, Parameter, parameters, slot};
use crate::distributions::{TINY, choice, float, int, well_formed};
use crate::history_edges::{joined, one_row, with_random_words};
use crate::lists::alternated;
use crate::mapping_edges;
use crate::runs::{Call, Run, Settings};
use history::RECENT_ROWS;
use records::{DistributionWords, MAX_TAKEN};
use run::{MAX_CANDIDATES, MAX_DIMENSIONS, MAX_NOISE, MAX_STARTUP};
use splitmix::SplitMix64;

/// The trials of most edges in the order in which they are asked first: one that discovers, one
/// that ends discovery, and one that may have a model.
pub const TRIALS: [u64; 3] = [7, 8, 9];

/// A small noise and some seed.
pub fn settings(slots: u64, startup: u64, candidates: u64) -> Settings {
    let seed = SplitMix64::for_line(startup, candidates).next_word().max(1);
    Settings { startup, candidates, noise: 1e-6_f64.to_bits(), seed, slots }
}

/// Discovers the case's dimensions, ends discovery, and asks all of a new trial's values, the first
/// of them with the case's history.
pub fn study(case: &Case, startup: u64, candidates: u64) -> Run {
    let [first, second, third] = TRIALS;
    let settings = settings(case.slots, startup, candidates);
    let asked = case.dimensions.first().copied().unwrap_or(unit());
    Run::new(settings).ask_each(first, &case.dimensions).ask(second, &asked).ask_each_with(
        third,
        &case.dimensions,
        &case.row_words(),
    )
}

pub fn unit() -> DistributionWords {
    float(0.0, 1.0, false, None)
}

/// The first of these parameters are continuous.
pub fn mixed(count: usize) -> Vec<Parameter> {
    let list = [
        unit(),
        int(0, 9, false, None),
        float(1e-5, 0.1, true, None),
        choice(5),
        int(1, 1000, true, Some(7)),
        float(-0.0, 0.35, false, Some(0.01)),
        int(10, 20, false, Some(4)),
        float(0.001, 1.0, true, Some(0.001)),
        int(1, 1000, true, None),
    ];
    let distributions = list.iter().cycle().take(count);
    (0..).zip(distributions).map(|(id, &distribution)| Parameter { id, distribution }).collect()
}

/// Rows of as many slots as there are parameters.
pub fn of_mixed(count: usize, rows: usize) -> Case {
    Case::inner(count, &mixed(count), rows)
}

/// Every number of rows about which something changes, and numbers of candidates and of start-up
/// trials about which something does.
pub fn sizes() -> Vec<Run> {
    let one_slot = [99, 100, 101, 130, 300]
        .into_iter()
        .flat_map(|rows| [40, 0, 1].map(|candidates| study(&of_mixed(1, rows), 10, candidates)));
    let at_startup = [99, 100, 101].into_iter().flat_map(|rows| {
        let case = of_mixed(1, rows);
        let startups = [rows as u64, rows as u64 + 1, rows as u64 - 1];
        startups.map(|startup| study(&case, startup, 20))
    });
    let more_slots = [2, 3, 4]
        .into_iter()
        .flat_map(|slots| [99, 100, 101].map(|rows| study(&of_mixed(slots, rows), 10, 20)));
    let unread = [RECENT_ROWS + 1, RECENT_ROWS + 30]
        .map(|rows| study(&with_random_words(of_mixed(1, rows)), 10, 40));
    one_slot.chain(at_startup).chain(unread).chain(more_slots).collect()
}

/// One row under start-up, exactly as many and more, with one dimension and with four.
pub fn startups() -> Vec<Run> {
    let of_rows = |(dimensions, rows): (usize, u64)| {
        let case = of_mixed(dimensions, rows as usize);
        let startups = [rows, rows + 1, rows.saturating_sub(1), 0, MAX_STARTUP];
        startups.map(|startup| study(&case, startup, 3))
    };
    let sizes = [(1, 1), (4, 5), (1, 0), (4, 0), (1, 2), (1, 9), (1, 10), (1, 11), (2, 3), (4, 1)];
    sizes.into_iter().flat_map(of_rows).collect()
}

pub fn candidates() -> Vec<Run> {
    let counts = [0, 1, 2, 3, 8, 100, 1000];
    let cases = [of_mixed(1, 3), of_mixed(5, 4), of_mixed(9, 6)];
    let most = study(&of_mixed(1, 2), 1, MAX_CANDIDATES);
    let of_count = |count| cases.each_ref().map(|case| study(case, 1, count));
    counts.into_iter().flat_map(of_count).chain([most]).collect()
}

/// Both zeros and the limits, with rows that are all different and with equal ones.
pub fn noises() -> Vec<Run> {
    let noises = [0.0, -0.0, TINY, 1e-10, 1e-6, 0.1, 1.0, MAX_NOISE];
    let cases = [of_mixed(2, 5), repeated(of_mixed(2, 2))];
    let of_case = |case: &Case| {
        noises.map(|noise| {
            let mut run = study(case, 1, 5);
            run.settings.noise = noise.to_bits();
            run
        })
    };
    cases.iter().flat_map(of_case).collect()
}

/// All rows twice.
fn repeated(case: Case) -> Case {
    joined(case.clone(), case)
}

/// Candidates with equal improvements: rows so far away that all of them are as good, and ranges of
/// one point, where all decode to the same.
pub fn ties() -> Vec<Run> {
    let far = [MAX_TAKEN, -MAX_TAKEN].map(|taken| slot(9, &unit(), taken.to_bits()));
    let [high, low] = far.map(|slot| one_row(&[slot]).with_dimensions(&[unit()]));
    let high_twice = joined(high.clone(), high.clone());
    let points = [
        int(7, 7, false, None),
        int(7, 7, true, Some(1)),
        float(3.5, 3.5, false, None),
        float(3.5, 3.5, true, Some(2.0)),
        float(-0.0, 0.0, false, Some(1.0)),
    ];
    let points = points.map(|distribution| {
        let list = [Parameter { id: 9, distribution }, Parameter { id: 4, distribution: unit() }];
        [Case::inner(1, &list[..1], 3), Case::inner(2, &list, 3)]
    });
    let cases = [high, low, high_twice].into_iter().chain(points.into_iter().flatten());
    let counts = [2, 5, 20];
    cases.flat_map(|case| counts.map(|count| study(&case, 1, count))).collect()
}

/// No row trains: another distribution, another id, no entry or no rows at all. And pivots that
/// are not above 0, without noise. One row trains in the last.
pub fn refused_fits() -> Vec<Run> {
    let tens = int(0, 9, false, None);
    let dimensions = [tens, choice(5), unit()];
    let row = [slot(9, &tens, 4), slot(4, &choice(5), 2), slot(3, &unit(), 0.25_f64.to_bits())];
    let [a, b, c] = row;
    let good = one_row(&row).with_dimensions(&dimensions);
    let other = slot(9, &int(0, 9, false, Some(1)), 4);
    let none_train = [
        one_row(&[ABSENT; 3]),
        one_row(&[other, b, c]),
        one_row(&[a, b, ABSENT]),
        joined(one_row(&[a, b, ABSENT]), good.clone()),
        joined(one_row(&[ABSENT; 3]), good.clone()),
        Case::of(3, &[], 0),
    ];
    let none_train = none_train.map(|case| case.with_dimensions(&dimensions));
    let some = joined(good.clone(), one_row(&[a, b, ABSENT]));
    let twice = joined(good.clone(), good.clone());
    let thrice = joined(of_mixed(3, 4), of_mixed(3, 4)).with_dimensions(&of_mixed(3, 1).dimensions);
    let without_noise = [good, some, twice, thrice].map(|case| {
        let mut run = study(&case, 1, 4);
        run.settings.noise = 0;
        run
    });
    let none_train = none_train.iter().flat_map(|case| [4, 0].map(|count| study(case, 0, count)));
    alternated([none_train.collect(), without_noise.to_vec()])
}

/// Only choices, with and without rows enough.
pub fn choices() -> Vec<Run> {
    let list = [choice(5), choice(1), choice(1 << 32), choice(5)];
    let parameters: Vec<Parameter> =
        (0..).zip(list).map(|(id, distribution)| Parameter { id, distribution }).collect();
    let cases = [1, 2, 4].map(|count| Case::inner(count, &parameters[..count], 3));
    cases.iter().flat_map(|case| [0, 3, 4].map(|startup| study(case, startup, 6))).collect()
}

/// From 1 dimension to 20, and a 21st and a 22nd, which are refused.
pub fn dimension_counts() -> Vec<Run> {
    let most = MAX_DIMENSIONS;
    let counts = [most, most + 1, most - 1, most + 2, 2, 3, 5, 6, 8, 10, 13, 15, 17];
    let of_count = |count: usize| {
        let slots = count.min(most);
        let history = if count < 10 { of_mixed(slots, 6) } else { of_mixed(slots, 3) };
        let dimensions: Vec<_> = mixed(count).iter().map(|p| p.distribution).collect();
        study(&history.with_dimensions(&dimensions), 1, 3)
    };
    let units = vec![unit(); most];
    let all_units: Vec<Parameter> =
        (0..).zip(units).map(|(id, distribution)| Parameter { id, distribution }).collect();
    let continuous = study(&Case::inner(most, &all_units, 5), 5, 3);
    counts.into_iter().map(of_count).chain([continuous]).collect()
}

/// Every well-formed distribution alone and beside another dimension.
pub fn each_distribution() -> Vec<Run> {
    let of_distribution = |distribution| {
        let list = [Parameter { id: 9, distribution }, Parameter { id: 4, distribution: unit() }];
        [Case::inner(1, &list[..1], 4), Case::of(2, &list, 3)].map(|case| study(&case, 1, 3))
    };
    well_formed().into_iter().flat_map(of_distribution).collect()
}

/// Rows with values anywhere, of the fixed parameters.
pub fn wide_values() -> Vec<Run> {
    let all = parameters();
    let cases = (1..=8).map(|count| Case::of(count, &all[..count], 12 - count));
    cases.map(|case| study(&case, 3, 4)).collect()
}

/// The call that ends discovery has a history, which no model is made of.
pub fn history_at_the_end_of_discovery() -> Vec<Run> {
    let of_case = |(case, startup): (Case, u64)| {
        let mut run = study(&case, startup, 3);
        if let Some(Call::Sample { history, .. }) = run.calls.get_mut(case.dimensions.len()) {
            *history = case.row_words();
        }
        run
    };
    let cases = [(1, 3, 0), (1, 3, 3), (1, 3, 4), (4, 6, 1), (4, 6, 0), (1, 101, 100)];
    cases.map(|(slots, rows, startup)| of_case((of_mixed(slots, rows), startup))).to_vec()
}

/// The cases of `training` that are about the mapping.
pub fn mappings() -> Vec<Run> {
    mapping_edges::mappings().iter().map(|case| study(case, 1, 3)).collect()
}
