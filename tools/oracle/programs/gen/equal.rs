//! Inputs for `equal`: pairs of distributions.

use crate::distributions::{float, int, is_well_formed, malformed, well_formed, with_word};
use crate::lists::{alternated, distinct, shuffled};
use crate::random_distributions::{self, damaged};
use records::{DistributionWords, FLOAT};
use splitmix::SplitMix64;

type Pair = [DistributionWords; 2];

const SIGN: u64 = 1 << 63;

/// Small changes of a word: of a sign, of a flag, from one kind to another, to a neighbour.
const CHANGES: &[fn(u64) -> u64] =
    &[|word| word ^ SIGN, |word| word ^ 1, |word| word ^ 3, |word| word.wrapping_add(1)];

pub fn edges() -> Vec<Vec<u64>> {
    let all = well_formed();
    let same = all.iter().map(|&d| [d, d]).collect();
    let other_zeros = all.iter().map(|&d| [d, with_other_zeros(d)]).collect();
    let changed = all.iter().flat_map(|&d| changed_copies(d).map(move |copy| [d, copy]));
    let each_with_each = all.iter().flat_map(|&a| all.iter().map(move |&b| [a, b]));
    let others =
        alternated([same, other_zeros, shuffled(changed), shuffled(each_with_each), refused()]);
    let pairs = distinct([chosen(), others].concat());
    pairs.iter().map(|pair| pair.concat()).collect()
}

/// Two kinds with the same numbers, and with the same words.
fn chosen() -> Vec<Pair> {
    let sevens = int(7, 7, false, None);
    vec![
        [float(7.0, 7.0, false, None), sevens],
        [float(0.0, 0.0, false, None), int(0, 0, false, None)],
        [sevens, with_word(sevens, 0, FLOAT)],
    ]
}

/// Copies, nearly copies, and distributions that have nothing to do with each other.
pub fn random(rng: &mut SplitMix64) -> Vec<u64> {
    let first = random_distributions::distribution(rng);
    let second = match rng.below(8) {
        0 => random_distributions::distribution(rng),
        1 => damaged(rng, first),
        2 => first,
        3 | 4 => with_other_zeros(first),
        _ => near_copy(rng, first),
    };
    [first, second].concat()
}

/// Each malformed distribution in the first place, in the second and in both.
fn refused() -> Vec<Pair> {
    let pairs = malformed().into_iter().zip(well_formed().into_iter().cycle());
    pairs.flat_map(|(bad, good)| [[bad, good], [good, bad], [bad, bad]]).collect()
}

/// A copy with the other sign at each end that is a zero.
pub fn with_other_zeros(mut words: DistributionWords) -> DistributionWords {
    if words[0] == FLOAT {
        words[1..=2].iter_mut().filter(|end| **end & !SIGN == 0).for_each(|end| *end ^= SIGN);
    }
    words
}

/// Well-formed ones that differ in one word by a little.
pub fn changed_copies(words: DistributionWords) -> impl Iterator<Item = DistributionWords> {
    let copies = (0..words.len()).flat_map(move |place| {
        CHANGES.iter().map(move |change| {
            let mut copy = words;
            copy[place] = change(copy[place]);
            copy
        })
    });
    copies.filter(is_well_formed)
}

/// One of several damaged copies that is well-formed, if there is one.
pub fn near_copy(rng: &mut SplitMix64, words: DistributionWords) -> DistributionWords {
    (0..8).map(|_| damaged(rng, words)).find(is_well_formed).unwrap_or(words)
}
