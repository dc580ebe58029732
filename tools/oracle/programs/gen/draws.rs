//! Inputs for the draws: generator words, and ends of ranges of whole numbers.

use splitmix::SplitMix64;

/// 2^53, the largest magnitude of an end.
const MAX_END: i64 = 1 << 53;

/// Ends on both sides of the limits, and small ones.
const EDGE_ENDS: &[i64] = &[
    0,
    1,
    -1,
    9,
    MAX_END - 1,
    MAX_END,
    MAX_END + 1,
    1 - MAX_END,
    -MAX_END,
    -MAX_END - 1,
    1 << 52,
    -(1 << 52),
    i64::MAX,
    i64::MIN,
    i64::MIN + 1,
];

/// Ranges that every edge word is tried with.
const EDGE_RANGES: &[(i64, i64)] =
    &[(0, 9), (0, 4), (-5, 5), (7, 7), (-MAX_END, MAX_END), (0, MAX_END), (3, 2)];

pub fn word_edges() -> Vec<u64> {
    let single_bits = (0..64).map(|bit| 1 << bit);
    let all_but_one = (0..64).map(|bit| !(1 << bit));
    let patterns = [
        0,
        u64::MAX,
        3,
        0x4082_2041,
        0x1000_4106_0c01_1441,
        0x5555_5555_5555_5555,
        0xaaaa_aaaa_aaaa_aaaa,
    ];
    patterns.into_iter().chain(single_bits).chain(all_but_one).collect()
}

/// Now and then a word of few bits, else any.
pub fn word_random(rng: &mut SplitMix64) -> u64 {
    if rng.below(8) == 0 { rng.sized(64) } else { rng.next_word() }
}

/// The generator's word from which `drawn` is drawn: the three steps undone, last one first.
pub fn state_before(drawn: u64) -> u64 {
    let undone = undo(drawn, |word| word << 17);
    let undone = undo(undone, |word| word >> 7);
    undo(undone, |word| word << 13)
}

/// The word that gives `result` by exclusive-or with its own shift. Each round sets right the bits
/// that the shift moves in from those that are right already; ten rounds of 7 bits are enough.
fn undo(result: u64, shift: fn(u64) -> u64) -> u64 {
    (0..10).fold(result, |word, _| result ^ shift(word))
}

pub fn whole_edges() -> Vec<Vec<u64>> {
    let pairs = EDGE_ENDS.iter().flat_map(|&low| EDGE_ENDS.iter().map(move |&high| (low, high)));
    let states = word_edges().into_iter().filter(|&word| word != 0).cycle();
    let all_ends = pairs.zip(states).map(|((low, high), state)| whole_words(state, low, high));
    let all_states = word_edges().into_iter().flat_map(|state| {
        EDGE_RANGES.iter().map(move |&(low, high)| whole_words(state, low, high))
    });
    all_ends.chain(all_states).collect()
}

pub fn whole_random(rng: &mut SplitMix64) -> Vec<u64> {
    let state = word_random(rng);
    let (low, high) = random_range(rng);
    whole_words(state, low, high)
}

fn random_range(rng: &mut SplitMix64) -> (i64, i64) {
    match rng.below(8) {
        0 => (rng.next_word() as i64, rng.next_word() as i64),
        1 => (rng.between(-MAX_END - 2, MAX_END + 2), rng.between(-MAX_END - 2, MAX_END + 2)),
        2 => (near_edge(rng), near_edge(rng)),
        3 => (0, rng.sized(53) as i64),
        _ => {
            let low = rng.between(-1000, 1000);
            (low, low + rng.sized(53) as i64)
        }
    }
}

fn near_edge(rng: &mut SplitMix64) -> i64 {
    rng.pick(EDGE_ENDS).wrapping_add(rng.between(-2, 2))
}

fn whole_words(state: u64, low: i64, high: i64) -> Vec<u64> {
    vec![state, low as u64, high as u64]
}
