//! Edges of `run`: settings, the phases, places and refused calls.

use crate::cases::{Case, Parameter};
use crate::clamped;
use crate::damages;
use crate::distributions::{choice, float, int, malformed};
use crate::history_edges;
use crate::lists::{alternated, distinct, shuffled};
use crate::run_models::{self, TRIALS, of_mixed, settings, study, unit};
use crate::runs::{Call, MAX_WORDS, Run, Settings};
use history::MAX_SLOTS;
use records::DistributionWords;
use run::{CLOSE, MAX_CANDIDATES, MAX_DIMENSIONS, MAX_NOISE, MAX_PLACES, MAX_STARTUP, SAMPLE};

pub fn edges() -> Vec<Vec<u64>> {
    let limits = limits().into_iter().map(|runs| words(&runs));
    let limits: Vec<_> = limits.chain([unreadable()]).collect();
    let first = [clamped::table_runs(), freed_places()].map(|runs| words(&runs)).concat();
    distinct([first, alternated(limits), words(&histories())].concat())
}

/// All that can be read.
pub fn runs() -> Vec<Run> {
    distinct([alternated(limits()), histories(), clamped::table_runs()].concat())
}

fn words(runs: &[Run]) -> Vec<Vec<u64>> {
    runs.iter().map(Run::words).collect()
}

/// All but some of the last few are at a limit.
fn limits() -> Vec<Vec<Run>> {
    vec![
        run_models::sizes(),
        out_of_range(),
        within_range(),
        places(),
        run_models::startups(),
        run_models::candidates(),
        run_models::dimension_counts(),
        refused_at_limits(),
        run_models::ties(),
        run_models::refused_fits(),
        run_models::choices(),
        run_models::history_at_the_end_of_discovery(),
        run_models::noises(),
        phases(),
        trial_numbers(),
        refused_between(),
        run_models::each_distribution(),
        run_models::wide_values(),
        run_models::mappings(),
    ]
}

/// The edges of histories, as far as a line can hold them beside other calls.
fn histories() -> Vec<Run> {
    let runs = alternated([damaged_histories(), malformed_asked(), other_histories()]);
    runs.into_iter().filter(|run| run.words().len() <= MAX_WORDS).collect()
}

fn tens() -> DistributionWords {
    int(0, 9, false, None)
}

/// Each setting beyond each of its limits, without calls, with good ones and with a refused one.
fn out_of_range() -> Vec<Run> {
    let good = settings(1, 1, 2);
    let noises = [MAX_NOISE.next_up(), -f64::from_bits(1), f64::NAN, f64::INFINITY, -1.0];
    let noises = noises.map(|noise| Settings { noise: noise.to_bits(), ..good });
    let others = [
        Settings { startup: MAX_STARTUP + 1, ..good },
        Settings { candidates: MAX_CANDIDATES + 1, ..good },
        Settings { seed: 0, ..good },
        Settings { slots: 0, ..good },
        Settings { slots: MAX_SLOTS + 1, ..good },
        Settings { startup: u64::MAX, ..good },
        Settings { candidates: u64::MAX, ..good },
        Settings { slots: u64::MAX, ..good },
        Settings { noise: u64::MAX, ..good },
        Settings { startup: 1 << 63, candidates: 1 << 63, noise: 1 << 63, seed: 0, slots: 1 << 63 },
    ];
    let bad = alternated([others.to_vec(), noises.to_vec()]);
    let calls = study(&of_mixed(1, 2), 1, 2).calls;
    let refused = Run::new(good).ask(7, &choice(0)).calls;
    let lists = [calls, vec![], refused].into_iter().cycle();
    bad.into_iter().zip(lists).map(|(settings, calls)| Run { settings, calls }).collect()
}

/// Each setting at each of its limits, without calls and with some.
fn within_range() -> Vec<Run> {
    let good = settings(1, 1, 2);
    let few = [
        Settings { startup: 0, ..good },
        Settings { startup: MAX_STARTUP, ..good },
        Settings { candidates: 0, ..good },
        Settings { noise: 0, ..good },
        Settings { noise: 1 << 63, ..good },
        Settings { noise: MAX_NOISE.to_bits(), ..good },
        Settings { seed: 1, ..good },
        Settings { seed: u64::MAX, ..good },
        Settings { seed: 1 << 63, ..good },
    ];
    let calls = study(&of_mixed(1, 3), 1, 2).calls;
    let with_calls = few.map(|settings| Run { settings, calls: calls.clone() });
    let most = [
        Settings { candidates: MAX_CANDIDATES, ..good },
        Settings { slots: MAX_SLOTS, ..good },
        good,
    ];
    let without = most.into_iter().chain(few).map(Run::new);
    alternated([with_calls.to_vec(), without.collect()])
}

/// One dimension is discovered, and then trials from 1 on are asked, one after the other.
fn with_trials(count: usize) -> Run {
    let run = Run::new(settings(1, 1, 2)).ask(TRIALS[0] + 1000, &tens());
    (1..=count as u64).fold(run, |run, trial| run.ask(trial, &tens()))
}

/// All places taken and one trial more, which is refused until one is closed.
fn places() -> Vec<Run> {
    let full = with_trials(MAX_PLACES);
    let last = MAX_PLACES as u64;
    let one_more = |run: Run, trial| run.ask_with(trial, &tens(), &of_tens(3).row_words());
    let closings = [1, last, 17];
    let closed = closings.map(|trial| {
        let run = one_more(full.clone(), last + 1).close(trial);
        let run = one_more(run, last + 1);
        one_more(run.ask(trial, &tens()), trial + 1)
    });
    let taken_again = closings.map(|trial| {
        let run = one_more(full.clone().close(trial), trial);
        one_more(run.close(99).close(last + 1), last + 1)
    });
    let discovery_trial = one_more(full.clone(), TRIALS[0] + 1000).close(5);
    let discovery_trial = one_more(discovery_trial, TRIALS[0] + 1000);
    let all_closed = (1..=last).fold(full.clone(), Run::close);
    let others = vec![
        with_trials(MAX_PLACES - 1),
        full.clone(),
        with_trials(MAX_PLACES + 1),
        with_trials(MAX_PLACES + 8),
        discovery_trial,
        all_closed.clone(),
        one_more(all_closed.close(1), 3).ask(4, &tens()),
        one_more(full.clone().close(3).close(4).close(3), 50).ask(51, &tens()).ask(52, &tens()),
        // Stored values and further draws while no place is free.
        full.ask(1, &tens()).ask(last, &unit()).ask(last + 1, &tens()).ask(1, &choice(5)),
    ];
    alternated([closed.to_vec(), taken_again.to_vec(), others])
}

/// Places freed and taken by other trials, the first of several free ones, with each trial's next
/// dimension: the places at the end show which was taken. Two dimensions, of which most trials ask one.
fn freed_places() -> Vec<Run> {
    let discovery = Run::new(settings(1, 1, 2)).ask_each(TRIALS[0] + 1000, &[tens(), unit()]);
    let asked = |run: Run, trials: &[u64]| trials.iter().fold(run, |run, &t| run.ask(t, &tens()));
    let closed = |run: Run, trials: &[u64]| trials.iter().fold(run, |run, &t| run.close(t));
    let four = asked(discovery.clone(), &[1, 2, 3, 4]);
    let full =
        (1..=MAX_PLACES as u64).fold(discovery.clone(), |run, trial| run.ask(trial, &tens()));
    vec![
        asked(closed(four.clone(), &[2]), &[5, 6]),
        asked(closed(four.clone(), &[2, 3]), &[5]),
        asked(closed(four.clone(), &[3, 2]), &[5]),
        asked(closed(four.clone(), &[4, 1, 3]), &[5, 6]).ask(5, &unit()),
        asked(closed(asked(closed(four.clone(), &[1, 2]), &[5]), &[3, 5]), &[3, 2, 1]),
        // A closed trial comes again; its second value, and draws past the last dimension.
        asked(closed(four, &[1, 3]), &[3, 3, 3, 2, 1]),
        asked(closed(full.clone(), &[17, 9, 32, 1]), &[40, 41, 42]).ask_each(41, &[unit(), unit()]),
        asked(closed(full, &[30, 20, 10]), &[10, 20, 30]),
        asked(discovery.ask_each(1, &[tens(), unit(), tens()]), &[2, 2]).ask(3, &tens()),
    ]
}

/// Rows of one slot with the distribution of the edges about places.
fn of_tens(rows: usize) -> Case {
    let parameter = Parameter { id: 9, distribution: tens() };
    Case::inner(1, &[parameter], rows)
}

/// Numbers 8 and 9 where a lower number is due too, and calls after them.
fn refused_at_limits() -> Vec<Run> {
    let in_discovery = Run::new(settings(2, 1, 2)).ask_each(7, &[tens(); MAX_DIMENSIONS]);
    let mut full = with_trials(MAX_PLACES);
    full.settings.slots = 2;
    let histories = bad_histories();
    let with_each = |run: &Run, trial| {
        let bad = histories.iter().map(|history| run.clone().ask_with(trial, &tens(), history));
        let bad = bad.map(|run| run.ask(trial, &tens()).ask(1, &tens()).close(1));
        let asked = [choice(0), unit()].map(|asked| run.clone().ask(trial, &asked));
        bad.chain(asked).collect::<Vec<_>>()
    };
    alternated([with_each(&in_discovery, 7), with_each(&full, 33)])
}

/// For rows of two slots: one for each number from 3 to 7, with and without lower ones, and others.
fn bad_histories() -> Vec<Vec<u64>> {
    let mut histories = vec![vec![0], Case::fixed(2, 2).with_tail(&[1, 2]).row_words()];
    let alone = damages::alone();
    histories.extend(alone[..8].iter().map(Case::row_words));
    histories.extend(damages::pairs()[..3].iter().map(Case::row_words));
    histories
}

/// Calls of every sort, of two dimensions and two slots.
fn script() -> Vec<Call> {
    let [first, second, third] = TRIALS;
    let dimensions = [tens(), unit()];
    let list = [9, 4].into_iter().zip(dimensions);
    let list: Vec<_> = list.map(|(id, distribution)| Parameter { id, distribution }).collect();
    let history = Case::inner(2, &list, 3).row_words();
    Run::new(settings(2, 3, 2))
        .ask_each(first, &dimensions)
        .ask_with(second, &tens(), &history)
        .ask(second, &unit())
        .ask(second, &choice(5))
        .ask_each_with(third, &dimensions, &history)
        .ask(first, &tens())
        .close(second)
        .ask_with(second, &tens(), &history)
        .calls
}

/// Before each call of the script, one that is refused and has the same trial. And a close.
fn refused_between() -> Vec<Run> {
    let script = script();
    let asked = [choice(0), [0; 6], float(0.0, 1.0, false, Some(0.0))];
    let of_trial = |trial| {
        let malformed = asked.map(|asked| (asked, vec![]));
        let histories = bad_histories().into_iter().map(|history| (tens(), history));
        let both = (choice(0), vec![0]);
        let samples = malformed.into_iter().chain(histories).chain([both]);
        let samples = samples.map(move |(asked, history)| Call::Sample { trial, asked, history });
        samples.chain([Call::Close { trial }, Call::Close { trial: trial + 100 }])
    };
    let at_place = |place: usize| {
        let trial = script.get(place).map_or(TRIALS[0], Call::trial);
        of_trial(trial).map(|call| inserted(&script, place, call)).collect::<Vec<_>>()
    };
    let lists: Vec<Vec<Run>> = (0..=script.len()).map(at_place).collect();
    shuffled(lists.concat())
}

fn inserted(calls: &[Call], place: usize, call: Call) -> Run {
    let calls = [&calls[..place], &[call], &calls[place..]].concat();
    Run { settings: settings(2, 3, 2), calls }
}

/// The discovery trial asked again, trials closed and asked again, stored values asked with other
/// distributions, and draws past the last dimension.
fn phases() -> Vec<Run> {
    let [first, second, third] = TRIALS;
    let case = of_mixed(3, 4);
    let (dimensions, history) = (&case.dimensions, case.row_words());
    let kinds = [unit(), tens(), choice(5), float(1e-5, 0.1, true, None), int(7, 7, false, None)];
    let active = Run::new(settings(3, 4, 3)).ask_each(first, dimensions).ask(second, &tens());
    let new = active.clone().ask_with(third, &kinds[2], &history);
    let of_model = study(&case, 4, 3);
    let reopened = of_model.clone().close(third).ask_each_with(third, dimensions, &history);
    let few = Run::new(settings(3, 4, 3)).ask(first, &tens());
    vec![
        Run::new(settings(3, 4, 3)),
        active.clone().ask_each_with(first, dimensions, &history).ask_each(first, &kinds),
        of_model.clone().ask_each(third, &kinds).ask_each(second, &kinds),
        new.clone().ask_each(third, &kinds),
        new.ask_with(third, &kinds[0], &history).ask_with(third, &kinds[1], &history),
        reopened.clone(),
        reopened.close(second).ask_each(second, dimensions).close(third).close(third),
        active.clone().close(second).ask_each(second, dimensions),
        active.clone().close(second).ask_each_with(second, dimensions, &history),
        active.clone().close(first).ask(first, &tens()).close(first).ask(first, &unit()),
        few.clone().close(first).ask_each(first, dimensions).close(second),
        few.clone().close(second).ask(second, &unit()).close(first).ask(first, &unit()),
        few.ask_each(second, &kinds).ask_each(first, &kinds).ask_each(third, &kinds),
        Run::new(settings(3, 4, 3)).close(first),
        Run::new(settings(3, 4, 3)).close(0).ask(0, &tens()).close(0).ask(1, &tens()).close(1),
        // Trials by turns.
        (0..4).fold(active.clone(), |run, _| {
            run.ask_with(third, &tens(), &history).ask(second, &unit()).ask(first, &choice(5))
        }),
        // A first value of the same trial in discovery, twice the same distribution.
        Run::new(settings(3, 0, 3)).ask_each(first, &[tens(), tens()]).ask_each(second, &kinds),
    ]
}

/// Any word is a trial number, and those of the history's rows do not matter.
fn trial_numbers() -> Vec<Run> {
    let numbers = [0, 1, 2, 1 << 32, 1 << 63, u64::MAX];
    let case = of_tens(3);
    let of_numbers = |first: u64, second: u64, third: u64| {
        Run::new(settings(1, 1, 2))
            .ask(first, &tens())
            .ask(second, &tens())
            .ask_with(third, &tens(), &case.row_words())
            .ask(first, &tens())
            .close(second)
            .close(third)
    };
    let places = 0..numbers.len();
    places
        .map(|place| {
            let number = |shift: usize| numbers[(place + shift) % numbers.len()];
            of_numbers(number(0), number(1), number(3))
        })
        .collect()
}

/// Each malformed distribution before a call of the script.
fn malformed_asked() -> Vec<Run> {
    let script = script();
    let places = (0..script.len()).cycle();
    let of_place = |(place, asked): (usize, DistributionWords)| {
        let trial = script[place].trial();
        inserted(&script, place, Call::Sample { trial, asked, history: vec![] })
    };
    places.zip(malformed()).map(of_place).collect()
}

/// Damaged histories before a call of the script.
fn damaged_histories() -> Vec<Run> {
    let script = script();
    let places = (0..script.len()).cycle();
    let cases = [damages::alone(), damages::pairs(), damages::in_long_histories()].concat();
    let of_place = |(place, case): (usize, Case)| {
        let (trial, history) = (script[place].trial(), case.row_words());
        inserted(&script, place, Call::Sample { trial, asked: tens(), history })
    };
    places.zip(cases).map(of_place).collect()
}

/// The small edges of histories.
fn other_histories() -> Vec<Run> {
    let cases = history_edges::small();
    let few = |case: &&Case| (1..=MAX_SLOTS).contains(&case.slots);
    cases.iter().filter(few).map(|case| study(case, 1, 2)).collect()
}

/// Lines that end too soon, other first words of a call, and lengths of a history that do not fit.
fn unreadable() -> Vec<Vec<u64>> {
    let good = study(&of_mixed(1, 1), 1, 2).words();
    let settings = &good[..5];
    let short = (0..good.len()).map(|length| good[..length].to_vec());
    let tags = [0, 3, 4, 1 << 32 | 1, 1 << 63, u64::MAX];
    let tags = tags.map(|tag| [settings, &[tag, 7, 3, 5, 0, 0, 0, 0, 0]].concat());
    let lengths = [1, 2, 11, 1 << 32, 1 << 61, 1 << 63, u64::MAX];
    let lengths = lengths.map(|length| [settings, &[SAMPLE, 7, 3, 5, 0, 0, 0, 0, length]].concat());
    let after_close = [
        [settings, &[CLOSE, 7, 7]].concat(),
        [settings, &[CLOSE, 7, 0, 0]].concat(),
        [settings, &[CLOSE, 7, CLOSE]].concat(),
    ];
    let bad_settings: [&[u64]; 3] = [&[1, 1, 0, 0, 1, 3], &[1, 1, 0, 0, 1, CLOSE], &[1, 1, 0, 0]];
    let bad_settings = bad_settings.map(<[u64]>::to_vec);
    alternated([
        tags.to_vec(),
        lengths.to_vec(),
        after_close.to_vec(),
        bad_settings.to_vec(),
        short.collect(),
    ])
}
