//! Edges of `propose`: texts of document 01's limits, malformed ones, and the edges of `run` as texts.

use crate::cases::{Case, OBJECTIVE, STATE};
use crate::clamped;
use crate::damages;
use crate::distributions::{choice, float, int};
use crate::history_edges::with_random_words;
use crate::lists::{alternated, distinct, shuffled};
use crate::random_texts;
use crate::run_edges;
use crate::run_models::{of_mixed, settings, unit};
use crate::runs::Settings;
use crate::text_damage::{changes, truncations};
use crate::text_faults::{self, FAULTS, Fault};
use crate::texts::{Text, of_run, word_line};
use history::{MAX_SLOTS, RECENT_ROWS};
use propose_text::MAX_HISTORY_WORDS;
use run::{MAX_DIMENSIONS, MAX_PLACES};
use splitmix::SplitMix64;
use std::slice::from_ref;

#[derive(Clone, PartialEq, Eq, Hash)]
pub struct Made {
    pub bytes: Vec<u8>,
    /// Whether it is a copy of a text with something changed in its bytes.
    pub damaged: bool,
}

/// Those of each list by turns.
pub fn edges() -> Vec<Made> {
    let good = [known(), sizes(), slots(), older_rows(), about_the_limit(), calls()].map(as_texts);
    let damaged = [
        text_faults::in_lines(),
        text_faults::names(),
        text_faults::of_texts(),
        text_faults::settings_first(),
        text_faults::row_lengths(),
        older_lines(),
        lines_about_the_limit(),
        at_every_place(),
    ];
    let damaged = damaged.map(as_damaged);
    alternated([&good[..], &damaged, &[as_texts(runs())]].concat())
}

/// Some of each list, few of the long ones, and short random ones: what is stored.
pub fn stored() -> Vec<Made> {
    let good = [
        known(),
        few(sizes(), 12),
        few(slots(), 8),
        few(older_rows(), 3),
        few(about_the_limit(), 6),
        calls(),
        few(runs(), 110),
        clamped_floats(),
    ];
    let damaged = [
        few(text_faults::in_lines(), 3 * FAULTS.len()),
        few(shuffled(text_faults::names()), 24),
        text_faults::of_texts(),
        text_faults::settings_first(),
        few(text_faults::row_lengths(), 20),
        few(older_lines(), 2),
        few(lines_about_the_limit(), 1),
    ];
    let good = good.into_iter().flat_map(as_texts);
    let random = (0..).map(|number| random_texts::made(&mut SplitMix64::for_line(1, number)));
    let random = random.filter(|made| made.bytes.len() < SHORT).take(60);
    distinct(good.chain(damaged.into_iter().flat_map(as_damaged)).chain(random).collect())
}

/// Bytes of a short text.
const SHORT: usize = 5_000;

fn few<T>(mut list: Vec<T>, count: usize) -> Vec<T> {
    list.truncate(count);
    list
}

fn as_texts(list: Vec<Text>) -> Vec<Made> {
    list.iter().map(|text| Made { bytes: text.bytes(), damaged: false }).collect()
}

fn as_damaged(list: Vec<Vec<u8>>) -> Vec<Made> {
    list.into_iter().map(|bytes| Made { bytes, damaged: true }).collect()
}

/// Document 01's text.
fn sample() -> Text {
    let settings = Settings { startup: 10, candidates: 0, noise: 0, seed: 1, slots: 1 };
    Text::new(settings, &[]).ask(7, &choice(5)).ask(7, &int(0, 9, false, None))
}

/// Document 01's text and a few like it.
fn known() -> Vec<Text> {
    let sample = sample();
    let active = sample.clone().ask(8, &choice(5)).ask(8, &unit()).ask(8, &unit());
    let with_rows = |case: Case| Text {
        settings: Settings { slots: 2, ..sample.settings },
        history: case.row_words(),
        calls: active.calls.clone(),
    };
    let refused = damages::alone().into_iter().take(12).map(with_rows);
    let malformed = [[0; 6], float(0.0, 1.0, true, None)];
    let texts = [
        sample.clone(),
        Text { calls: vec![], ..sample.clone() },
        active.clone(),
        active.clone().ask_each(9, &malformed).ask(9, &choice(5)).ask_each(7, &malformed),
        text_faults::good(),
    ];
    texts.into_iter().chain(refused).collect()
}

/// Discovers, ends discovery, and asks all values of two further trials, the second of them once
/// more than there are.
fn study(case: &Case, startup: u64, candidates: u64) -> Text {
    let text = Text::new(settings(case.slots, startup, candidates), &case.row_words());
    let dimensions = &case.dimensions;
    text.ask_each(7, dimensions)
        .ask_each(8, dimensions)
        .ask_each(9, dimensions)
        .ask_each(10, dimensions)
        .ask(10, &unit())
}

/// Numbers of rows about which something changes, with start-up below, at and above them.
fn sizes() -> Vec<Text> {
    let rows = [99, 100, 101, 130, 0, 1, 2];
    let of_slots = |slots| rows.map(|rows| study(&of_mixed(slots, rows), 10, 20));
    let at_startup = |rows: usize| {
        let startups = [rows as u64, rows as u64 + 1];
        startups.map(|startup| study(&of_mixed(1, rows), startup, 20))
    };
    let startups = [99, 100, 101, 1, 2].into_iter().flat_map(at_startup);
    let one = of_slots(1).into_iter().chain(startups);
    one.chain([2, 3].into_iter().flat_map(of_slots)).collect()
}

/// Every number of slots, with rows and without.
fn slots() -> Vec<Text> {
    let of_slots = |slots: usize| {
        let without = Text::new(settings(slots as u64, 1, 2), &[]).ask(7, &unit()).ask(8, &unit());
        [study(&of_mixed(slots, 2), 2, 3), without]
    };
    let all = (1..=MAX_SLOTS as usize).flat_map(of_slots);
    shuffled(all)
}

/// What older rows hold does not matter, but that they are there does.
fn older_rows() -> Vec<Text> {
    let counts = [RECENT_ROWS + 1, RECENT_ROWS + 3, RECENT_ROWS + 200];
    let random = counts.map(|rows| study(&with_random_words(of_mixed(1, rows)), 100, 5));
    let of_bad = |row| {
        [STATE, OBJECTIVE].map(|place| of_mixed(1, RECENT_ROWS + 2).with_head_word(row, place, !0))
    };
    let bad = [0, 1, 2, RECENT_ROWS + 1].into_iter().flat_map(of_bad);
    let startup = study(&of_mixed(1, RECENT_ROWS + 5), RECENT_ROWS as u64 + 6, 5);
    random.into_iter().chain(bad.map(|case| study(&case, 1, 5))).chain([startup]).collect()
}

/// As many rows as a history may have, one fewer, and one and two more.
fn about_the_limit() -> Vec<Text> {
    let of_slots = |slots: usize, more: usize| {
        let most = MAX_HISTORY_WORDS / Text::row_words(slots as u64);
        let case = of_mixed(slots, most - 1 + more);
        let calls = &case.dimensions[..1];
        Text::new(settings(case.slots, 5, 3), &case.row_words())
            .ask_each(7, calls)
            .ask_each(8, calls)
            .ask_each(9, calls)
    };
    let counts = [(1, 1), (1, 2), (20, 1), (20, 2), (2, 1), (3, 2)];
    let others = [1, 2, 3, 20].into_iter().flat_map(|slots| (0..4).map(move |more| (slots, more)));
    let all = distinct(counts.into_iter().chain(others).collect());
    all.into_iter().map(|(slots, more)| of_slots(slots, more)).collect()
}

/// Over all places and over all dimensions, trials opened again, and values past the last.
fn calls() -> Vec<Text> {
    let tens = int(0, 9, false, None);
    let start = Text::new(settings(1, 1, 2), &of_mixed(1, 3).row_words());
    let trials = |count: usize| {
        let text = start.clone().ask(1000, &unit());
        let text = (1..=count as u64).fold(text, |text, trial| text.ask(trial, &unit()));
        text.ask(1, &tens).ask(1000, &unit()).ask(1001, &unit())
    };
    let dimensions = |count: usize| {
        let text = start.clone().ask_each(7, &vec![unit(); count]);
        text.ask(8, &tens).ask_each(8, &vec![tens; count]).ask(7, &tens)
    };
    let [first, second] = [3, 5].map(|count| of_mixed(count, 4));
    let reopened = |case: &Case| {
        let text = study(case, 1, 3);
        text.ask_each(7, &case.dimensions).ask(7, &tens).ask(8, &choice(5)).ask(0, &tens)
    };
    let malformed = [[0; 6], choice(0), [4, 0, 0, 0, 0, 0], float(1.0, 0.0, false, None)];
    vec![
        trials(MAX_PLACES - 1),
        trials(MAX_PLACES),
        trials(MAX_PLACES + 1),
        trials(MAX_PLACES + 5),
        dimensions(MAX_DIMENSIONS - 1),
        dimensions(MAX_DIMENSIONS),
        dimensions(MAX_DIMENSIONS + 1),
        dimensions(MAX_DIMENSIONS + 3),
        reopened(&first),
        reopened(&second),
        start.clone().ask_each(0, &malformed).ask(0, &tens).ask_each(0, &malformed).ask(1, &tens),
        start
            .ask_each(u64::MAX, &[tens, unit()])
            .ask(u64::MAX - 1, &choice(5))
            .ask(1, &malformed[1]),
    ]
}

/// The runs about the clamp of a random float.
fn clamped_floats() -> Vec<Text> {
    clamped::table_runs().iter().flat_map(of_run).collect()
}

/// The edges of `run`, with each of their histories.
fn runs() -> Vec<Text> {
    run_edges::runs().iter().flat_map(of_run).collect()
}

/// Each fault in a row that is never read, or in one that is.
fn older_lines() -> Vec<Vec<u8>> {
    let lines = study(&of_mixed(1, RECENT_ROWS + 2), 1, 2).lines();
    let rows = [3, 4, 5, RECENT_ROWS + 4].into_iter().cycle();
    let with_fault = |(row, fault): (usize, &Fault)| {
        let mut copy = lines.clone();
        fault(&mut copy[row]);
        copy.concat()
    };
    rows.zip(FAULTS).map(with_fault).collect()
}

/// The first row over the limit is malformed, or the last of the text, or has no newline.
fn lines_about_the_limit() -> Vec<Vec<u8>> {
    let slots = MAX_SLOTS as usize;
    let most = MAX_HISTORY_WORDS / Text::row_words(MAX_SLOTS);
    let text = Text::new(settings(MAX_SLOTS, 1, 2), &of_mixed(slots, most).row_words());
    let lines = text.ask(7, &unit()).lines();
    let row = word_line(&of_mixed(slots, 1).row_words());
    let rows = most + 3;
    vec![
        [&lines[..rows], from_ref(&row)].concat().concat(),
        [&lines[..rows], &[row[..row.len() - 1].to_vec()]].concat().concat(),
        [&lines[..rows], &[b"0\n".to_vec()], &lines[rows..]].concat().concat(),
        lines[..rows].concat(),
    ]
}

/// Cut off at every place and changed at every byte.
fn at_every_place() -> Vec<Vec<u8>> {
    let short = text_faults::good();
    let texts = [sample().bytes(), Text { calls: short.calls[..2].to_vec(), ..short }.bytes()];
    let lists = texts.iter().flat_map(|text| [truncations(text), changes(text)]);
    alternated(lists.collect::<Vec<_>>())
}
