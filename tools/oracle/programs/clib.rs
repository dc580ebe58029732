//! `clib`: answers sqrt, round and floor lines with the C library, in the text of `leaf`.

use leaf_lines::{Answer, Leaf, answer_input, float_to_word, word_to_float};
use std::hint::black_box;

mod c {
    unsafe extern "C" {
        pub safe fn sqrt(x: f64) -> f64;
        pub safe fn round(x: f64) -> f64;
        pub safe fn floor(x: f64) -> f64;
    }
}

const LEAVES: &[(&str, Leaf)] = &[
    ("sqrt", |words| c_leaf(words, c::sqrt)),
    ("round", |words| c_leaf(words, c::round)),
    ("floor", |words| c_leaf(words, c::floor)),
];

/// Calls through a pointer that the compiler cannot see through, so that it puts no code of its own there.
fn c_leaf(words: &[u64], f: extern "C" fn(f64) -> f64) -> Option<Answer> {
    let &[x] = words else { return None };
    let y = black_box(f)(word_to_float(x));
    Some(Ok(vec![float_to_word(y)]))
}

fn main() -> std::io::Result<()> {
    answer_input(LEAVES)
}
