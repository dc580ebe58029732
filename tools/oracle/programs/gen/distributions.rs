//! Distributions as six words: well-formed and malformed ones, and calls with each of them.

use crate::lists::{alternated, shuffled};
use records::{
    CHOICE, DistributionWords, FLOAT, INT, LEAST_FLOAT, LEAST_TAKEN, MAX_CHOICES, MAX_FLOAT,
    MAX_INT,
};

/// N further words of a call, and its distribution.
pub type Call<const N: usize> = ([u64; N], DistributionWords);

/// Places of words.
const LOG: usize = 3;
const STEPPED: usize = 4;
const STEP: usize = 5;

/// 2^-52, the distance from 1 to the next float.
pub const EPSILON: f64 = f64::EPSILON;
/// The least float above 0.
pub const TINY: f64 = f64::from_bits(1);

/// Well-formed: low, high, log and step.
const FLOATS: &[(f64, f64, bool, Option<f64>)] = &[
    (0.0, 1.0, false, None),
    (0.0, 0.35, false, Some(0.01)),
    (1e-5, 0.1, true, None),
    (0.001, 1.0, true, Some(0.001)),
    (-1.5, 2.5, false, None),
    (10.0, 20.0, false, Some(4.0)),
    (1.0, 100.0, true, Some(7.0)),
    (0.1, 0.9, false, Some(0.1)),
    (-5.0, -1.0, false, Some(0.25)),
    (2.0, 3.0, true, None),
    // One point, also of two zeros.
    (3.5, 3.5, false, None),
    (3.5, 3.5, false, Some(0.5)),
    (3.5, 3.5, true, None),
    (3.5, 3.5, true, Some(2.0)),
    (0.0, 0.0, false, None),
    (-0.0, -0.0, false, None),
    (0.0, -0.0, false, None),
    (-0.0, 0.0, false, Some(1.0)),
    (-0.0, 1.0, false, Some(0.5)),
    (-1.0, -0.0, false, Some(0.5)),
    // Steps longer than the range.
    (0.0, 1.0, false, Some(3.0)),
    (-1.0, 1.0, false, Some(f64::MAX)),
    (2.0, 3.0, true, Some(5.0)),
    (0.5, 0.75, true, Some(f64::MAX)),
    // Ends at the limits.
    (-MAX_FLOAT, MAX_FLOAT, false, None),
    (-MAX_FLOAT, MAX_FLOAT, false, Some(2.0)),
    (0.0, MAX_FLOAT, false, Some(1.0)),
    (MAX_FLOAT, MAX_FLOAT, false, Some(1.0)),
    (-MAX_FLOAT, -MAX_FLOAT, false, None),
    (LEAST_FLOAT, MAX_FLOAT, true, None),
    (LEAST_FLOAT, MAX_FLOAT, true, Some(1.0)),
    (LEAST_FLOAT, LEAST_FLOAT, true, None),
    (MAX_FLOAT, MAX_FLOAT, true, None),
    (0.0, 1.0, false, Some(LEAST_FLOAT)),
    (0.0, 2.0, false, Some(2.0 * LEAST_FLOAT)),
    (-0.5, MAX_FLOAT, false, Some(1.0)),
    (LEAST_FLOAT, 1.0, true, Some(LEAST_FLOAT)),
    // Neighbours, and ranges near 0.
    (1.0, 1.0 + EPSILON, false, None),
    (1.0, 1.0 + EPSILON, false, Some(LEAST_FLOAT)),
    (1.0, 1.0 + EPSILON, true, None),
    (MAX_FLOAT - 0.5, MAX_FLOAT, false, None),
    (-MAX_FLOAT, 0.5 - MAX_FLOAT, false, Some(0.25)),
    (MAX_FLOAT - 0.5, MAX_FLOAT, true, None),
    (0.0, TINY, false, None),
    (-TINY, TINY, false, Some(LEAST_FLOAT)),
    (0.0, LEAST_TAKEN, false, None),
];

const INTS: &[(i64, i64, bool, Option<i64>)] = &[
    (10, 20, false, Some(4)),
    (-5, 5, false, None),
    (1, 1000, true, None),
    (1, 1000, true, Some(7)),
    (0, 9, false, None),
    (-100, -1, false, Some(9)),
    (3, 5, true, None),
    (2, 1_000_000, true, Some(250)),
    // One point.
    (7, 7, false, None),
    (7, 7, false, Some(3)),
    (7, 7, true, None),
    (7, 7, true, Some(1)),
    (0, 0, false, None),
    (1, 1, true, None),
    (-3, -3, false, Some(1)),
    // Steps about as long as the range, and longer.
    (0, 10, false, Some(9)),
    (0, 10, false, Some(10)),
    (0, 10, false, Some(11)),
    (-10, 10, false, Some(MAX_INT)),
    (5, 9, true, Some(MAX_INT)),
    // Ends at the limits.
    (-MAX_INT, MAX_INT, false, None),
    (-MAX_INT, MAX_INT, false, Some(1)),
    (-MAX_INT, MAX_INT, false, Some(3)),
    (-MAX_INT, MAX_INT, false, Some(MAX_INT)),
    (1, MAX_INT, true, None),
    (1, MAX_INT, true, Some(MAX_INT)),
    (1, MAX_INT, true, Some(3)),
    (MAX_INT, MAX_INT, true, None),
    (MAX_INT - 1, MAX_INT, false, None),
    (MAX_INT - 1, MAX_INT, true, Some(1)),
    (-MAX_INT, 1 - MAX_INT, false, None),
];

const CHOICES: &[u64] = &[5, 1, 2, 3, 10, 1000, 1 << 31, MAX_CHOICES - 1, MAX_CHOICES];

/// Words that are wrong in many a place: flags, kinds, counts, zeros, limits as integers and floats.
pub const EDGE_WORDS: &[u64] = &[
    0,
    1,
    2,
    3,
    4,
    256,
    u64::MAX,
    1 << 63,
    (1 << 63) - 1,
    1 << 31,
    MAX_CHOICES,
    MAX_CHOICES + 1,
    MAX_INT as u64,
    MAX_INT as u64 + 1,
    -MAX_INT as u64,
    -MAX_INT as u64 - 1,
    1 << 53,
    1.0_f64.to_bits(),
    (-1.0_f64).to_bits(),
    MAX_FLOAT.to_bits(),
    MAX_FLOAT.to_bits() + 1,
    (-MAX_FLOAT).to_bits(),
    (-MAX_FLOAT).to_bits() + 1,
    LEAST_FLOAT.to_bits() - 1,
    LEAST_FLOAT.to_bits(),
    f64::INFINITY.to_bits(),
    f64::NEG_INFINITY.to_bits(),
    f64::NAN.to_bits(),
    f64::INFINITY.to_bits() + 1,
];

pub fn float(low: f64, high: f64, log: bool, step: Option<f64>) -> DistributionWords {
    let (low, high, step) = (low.to_bits(), high.to_bits(), step.map(f64::to_bits));
    [FLOAT, low, high, log.into(), step.is_some().into(), step.unwrap_or(0)]
}

pub fn int(low: i64, high: i64, log: bool, step: Option<i64>) -> DistributionWords {
    let step_word = step.unwrap_or(0) as u64;
    [INT, low as u64, high as u64, log.into(), step.is_some().into(), step_word]
}

pub fn choice(count: u64) -> DistributionWords {
    [CHOICE, count, 0, 0, 0, 0]
}

/// A copy with one word replaced.
pub fn with_word(mut words: DistributionWords, place: usize, word: u64) -> DistributionWords {
    words[place] = word;
    words
}

pub fn is_well_formed(words: &DistributionWords) -> bool {
    records::distribution(words).is_some()
}

/// Well-formed distributions of every sort.
pub fn well_formed() -> Vec<DistributionWords> {
    let floats = FLOATS.iter().map(|&(low, high, log, step)| float(low, high, log, step));
    let ints = INTS.iter().map(|&(low, high, log, step)| int(low, high, log, step));
    let choices = CHOICES.iter().map(|&count| choice(count));
    alternated([floats.collect(), ints.collect(), choices.collect()])
}

/// Each rule broken, most by as little as possible.
pub fn malformed() -> Vec<DistributionWords> {
    alternated([malformed_floats(), malformed_ints(), malformed_choices_and_kinds()])
}

fn malformed_floats() -> Vec<DistributionWords> {
    let (plain, stepped) = (float(0.0, 1.0, false, None), float(0.0, 1.0, false, Some(0.5)));
    let ends = [
        (1.0, 1.0_f64.next_down()),
        (0.0, MAX_FLOAT.next_up()),
        ((-MAX_FLOAT).next_down(), 0.0),
        (f64::NAN, 1.0),
        (0.0, f64::NAN),
        (0.0, f64::INFINITY),
        (f64::NEG_INFINITY, 0.0),
        (f64::INFINITY, f64::INFINITY),
    ];
    let log_lows = [LEAST_FLOAT.next_down(), LEAST_TAKEN, TINY, 0.0, -0.0, -1.0];
    let steps = [
        0.0,
        -0.0,
        -0.5,
        LEAST_FLOAT.next_down(),
        LEAST_TAKEN,
        TINY,
        f64::INFINITY,
        f64::NEG_INFINITY,
        f64::NAN,
    ];
    let flags_and_words = [
        with_word(plain, LOG, 2),
        with_word(plain, STEPPED, 2),
        with_word(plain, STEP, (-0.0_f64).to_bits()),
        with_word(plain, STEP, 0.5_f64.to_bits()),
        with_word(stepped, LOG, u64::MAX),
        with_word(stepped, STEPPED, 2),
        with_word(stepped, STEPPED, 0),
    ];
    alternated([
        flags_and_words.to_vec(),
        ends.map(|(low, high)| float(low, high, false, None)).to_vec(),
        log_lows.map(|low| float(low, 1.0, true, None)).to_vec(),
        steps.map(|step| float(0.0, 1.0, false, Some(step))).to_vec(),
        too_many_steps(),
    ])
}

/// In the second, third and fourth the exact number of steps is below 2^52 + 1, the rounded one is not.
fn too_many_steps() -> Vec<DistributionWords> {
    vec![
        float(0.0, 1.0 + EPSILON, false, Some(LEAST_FLOAT)),
        float(0.0, 2.0, false, Some((2.0 * LEAST_FLOAT).next_down())),
        float(-0.75, MAX_FLOAT, false, Some(1.0)),
        float(-1.5, MAX_FLOAT, false, Some(1.0 + EPSILON)),
        float(-1.5, MAX_FLOAT, false, Some(1.0)),
        float(-MAX_FLOAT, MAX_FLOAT, false, Some(1.0)),
        float(1.0, MAX_FLOAT, true, Some(0.5)),
        float(0.0, MAX_FLOAT, false, Some(LEAST_FLOAT)),
    ]
}

fn malformed_ints() -> Vec<DistributionWords> {
    let (plain, stepped) = (int(-5, 5, false, None), int(10, 20, false, Some(4)));
    let flags_and_words = [
        with_word(plain, LOG, 2),
        with_word(plain, STEPPED, 2),
        with_word(plain, STEP, 1),
        with_word(plain, STEP, 1 << 63),
        with_word(stepped, LOG, u64::MAX),
        with_word(stepped, STEPPED, 2),
        with_word(stepped, STEPPED, 0),
    ];
    let ends = [
        (1, 0),
        (0, MAX_INT + 1),
        (-MAX_INT - 1, 0),
        (0, i64::MAX),
        (i64::MIN, 0),
        (i64::MIN, i64::MIN),
    ];
    let log_lows = [0, -1, -MAX_INT];
    let steps = [0, -1, MAX_INT + 1, i64::MAX, i64::MIN];
    alternated([
        flags_and_words.to_vec(),
        ends.map(|(low, high)| int(low, high, false, None)).to_vec(),
        log_lows.map(|low| int(low, 5, true, None)).to_vec(),
        steps.map(|step| int(10, 20, false, Some(step))).to_vec(),
    ])
}

fn malformed_choices_and_kinds() -> Vec<DistributionWords> {
    let counts = [0, MAX_CHOICES + 1, 1 << 63, u64::MAX];
    let other_words =
        (2..6).flat_map(|place| [1, 1 << 63].map(|word| with_word(choice(5), place, word)));
    let kinds = [0, 4, u64::MAX, FLOAT | 1 << 32, 1.0_f64.to_bits()];
    alternated([
        counts.map(choice).to_vec(),
        other_words.collect(),
        kinds.map(|kind| with_word(choice(5), 0, kind)).to_vec(),
        kinds.map(|kind| [kind, 0, 0, 0, 0, 0]).to_vec(),
    ])
}

/// Every well-formed distribution with each of its arguments, in an order without a pattern.
pub fn with_each_well_formed<const N: usize>(
    arguments: fn(&DistributionWords) -> Vec<[u64; N]>,
) -> Vec<Call<N>> {
    let calls = well_formed()
        .into_iter()
        .flat_map(|d| arguments(&d).into_iter().map(move |argument| (argument, d)));
    shuffled(calls)
}
