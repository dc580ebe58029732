//! `bench`: nanoseconds per call of sqrt, exp and ln over mixed inputs, words in and words out.
//! With `--cfg linked` the functions of a static library are timed in the same run, pass by pass.

use arithmetic::{Refusal, float};
use splitmix::SplitMix64;
use std::hint::black_box;
use std::time::Instant;

const INPUTS: u64 = 4096;
const PASSES: usize = 3001;

type WordFunction = extern "C" fn(u64) -> u64;

struct Operation {
    name: &'static str,
    input: fn(&mut SplitMix64) -> f64,
    /// The stand-in first.
    functions: &'static [(&'static str, WordFunction)],
}

const OPERATIONS: &[Operation] = &[
    Operation {
        name: "sqrt",
        input: positive,
        functions: &[
            ("Rust", sqrt),
            #[cfg(linked)]
            ("static library", linked::arith_sqrt),
        ],
    },
    Operation {
        name: "exp",
        input: exponent,
        functions: &[
            ("Rust", exp),
            #[cfg(linked)]
            ("static library", linked::arith_exp),
        ],
    },
    Operation {
        name: "ln",
        input: positive,
        functions: &[
            ("Rust", ln),
            #[cfg(linked)]
            ("static library", linked::arith_ln),
        ],
    },
];

#[cfg(linked)]
mod linked {
    unsafe extern "C" {
        pub safe fn arith_sqrt(word: u64) -> u64;
        pub safe fn arith_exp(word: u64) -> u64;
        pub safe fn arith_ln(word: u64) -> u64;
    }
}

extern "C" fn sqrt(word: u64) -> u64 {
    float::sqrt(f64::from_bits(word)).to_bits()
}

extern "C" fn exp(word: u64) -> u64 {
    word_or_number(float::exp(f64::from_bits(word)))
}

extern "C" fn ln(word: u64) -> u64 {
    word_or_number(float::ln(f64::from_bits(word)))
}

fn word_or_number(answer: Result<f64, Refusal>) -> u64 {
    match answer {
        Ok(x) => x.to_bits(),
        Err(Refusal(number)) => number,
    }
}

/// A positive normal float of any exponent.
fn positive(rng: &mut SplitMix64) -> f64 {
    f64::from_bits(rng.between(1, 2046) as u64 * (1 << 52) + (rng.next_word() >> 12))
}

/// Mostly the arguments of a kernel, now and then any that exp takes.
fn exponent(rng: &mut SplitMix64) -> f64 {
    let unit = (rng.next_word() >> 11) as f64 / (1_u64 << 53) as f64;
    if rng.below(4) == 0 { -708.0 + unit * 1417.0 } else { -40.0 * unit }
}

/// One pass over the inputs: nanoseconds per call, and a sum over the answers.
fn pass(function: WordFunction, inputs: &[u64]) -> (f64, u64) {
    let function = black_box(function);
    let start = Instant::now();
    let sum =
        inputs.iter().fold(0_u64, |sum, &word| sum.wrapping_mul(31).wrapping_add(function(word)));
    (start.elapsed().as_nanos() as f64 / inputs.len() as f64, sum)
}

/// The times of all passes of each function, the functions taking turns.
fn interleaved_passes(functions: &[(&str, WordFunction)], inputs: &[u64]) -> Vec<Vec<f64>> {
    let (_, expected) = pass(functions[0].1, inputs);
    let mut times = vec![Vec::with_capacity(PASSES); functions.len()];
    for _ in 0..PASSES {
        for (times, (name, function)) in times.iter_mut().zip(functions) {
            let (time, sum) = pass(*function, inputs);
            assert_eq!(sum, expected, "{name} answers otherwise");
            times.push(time);
        }
    }
    times
}

fn report(operation: &Operation) {
    let mut rng = SplitMix64::for_line(1, 0);
    let inputs: Vec<u64> = (0..INPUTS).map(|_| (operation.input)(&mut rng).to_bits()).collect();
    let times = interleaved_passes(operation.functions, &inputs);
    for (mut times, (function, _)) in times.into_iter().zip(operation.functions) {
        times.sort_by(f64::total_cmp);
        println!(
            "{} {function}: median {:.2} ns, least {:.2} ns",
            operation.name,
            times[PASSES / 2],
            times[0]
        );
    }
}

fn main() {
    OPERATIONS.iter().for_each(report);
}
