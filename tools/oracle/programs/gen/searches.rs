//! Inputs for `optimize_acquisition`: training data, the number of candidates and the generator's word.

use crate::draws::{word_edges, word_random};
use crate::fits::{self, Fit};
use crate::lists::{alternated, shuffled};
use crate::{predictions, random_fits};
use splitmix::SplitMix64;
use training::MAX_COORDINATE;

const CANDIDATES: &[u64] = &[0, 1, 2, 3, 10, 30];

pub fn edges() -> Vec<Vec<u64>> {
    let lists = [
        with_candidates(&predictions::ordinary()),
        with_candidates(&tied()),
        with_candidates(&fits::noises()),
        with_candidates(&fits::equal_values()),
        words_tried(),
        refused(),
        wrong_counts(),
    ];
    alternated(lists)
}

/// Each number of candidates, with changing words.
fn with_candidates(fits: &[Fit]) -> Vec<Vec<u64>> {
    let pairs = fits.iter().flat_map(|fit| CANDIDATES.iter().map(move |&count| (fit, count)));
    let states = word_edges().into_iter().filter(|&word| word != 0).cycle();
    shuffled(pairs.zip(states).map(|((fit, count), state)| words(fit, count, state)))
}

/// Models that score all points alike: with infinite noise, and with rows so far away that the
/// points of the cube are one to them.
fn tied() -> Vec<Fit> {
    [(1, 1), (3, 1), (2, 3), (5, 3), (2, 20)]
        .into_iter()
        .map(|(rows, columns)| Fit::fixed(rows, columns))
        .flat_map(|fit| {
            let far = fit.clone().with_x(|_, _, x| x * MAX_COORDINATE);
            [fit.with_noise(f64::INFINITY), far]
        })
        .collect()
}

/// One model with every edge word, and a few candidates, and 300.
fn words_tried() -> Vec<Vec<u64>> {
    let fit = Fit::fixed(3, 1);
    let all_words = word_edges().into_iter().map(|state| words(&fit, 2, state));
    let many = [1, 3].map(|columns| words(&Fit::fixed(6, columns), 300, 0x4082_2041));
    many.into_iter().chain(all_words).collect()
}

/// Refused fits, with a word that is taken and with zero.
fn refused() -> Vec<Vec<u64>> {
    let pivot = Fit::fixed(2, 1).with_equal_rows().with_noise(0.0);
    let coordinate = Fit::fixed(3, 2).with_x(|_, _, _| f64::NAN);
    let fits = [vec![pivot, coordinate], fits::odd_counts()].concat();
    fits.iter().flat_map(|fit| [1, 0].map(|state| words(fit, 2, state))).collect()
}

/// Counts one off, a word too few and too many, and huge counts.
fn wrong_counts() -> Vec<Vec<u64>> {
    let training = Fit::fixed(3, 2).words();
    let rests: [&[u64]; 3] = [&[], &[2], &[2, 1, 1]];
    let lengths = rests.map(|rest| [&training, rest].concat());
    let counts = fits::wrong_counts().into_iter().map(|fit| words(&fit, 2, 1));
    lengths.into_iter().chain(counts).chain(fits::huge_counts()).collect()
}

pub fn random(rng: &mut SplitMix64) -> Vec<u64> {
    let fit = random_fits::fit(rng);
    let candidates = match rng.below(128) {
        0 => 300,
        1..=16 => rng.below(31),
        _ => rng.pick(CANDIDATES),
    };
    let state = if rng.below(64) == 0 { 0 } else { word_random(rng) };
    words(&fit, candidates, state)
}

/// A search to be timed: an ordinary fit of so many rows and columns, differing by its number.
pub fn timed(rows: u64, columns: u64, candidates: u64, number: u64) -> Vec<u64> {
    let mut rng = SplitMix64::for_line(1, number);
    let fit = Fit::ordinary(&mut rng, rows, columns);
    words(&fit, candidates, rng.next_word() | 1)
}

fn words(fit: &Fit, candidates: u64, state: u64) -> Vec<u64> {
    [&fit.words()[..], &[candidates, state]].concat()
}
