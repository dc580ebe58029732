//! `gen NAME COUNT SEED [--from N] [--skip-edges] [--unreadable PERCENT]`: writes lines of leaf calls.
//! `gen --names`: writes the names of the leaves. `gen --edge-count NAME`: writes how many edges it has.
//! `gen --searches ROWS COLUMNS CANDIDATES COUNT`: writes searches to be timed.
//! `gen --pairs COUNT SEED [--from N]`: writes pairs of lines of `run` with equal answers.
//! `gen --texts COUNT SEED [--from N]`: writes texts of `propose`, edges first, as `frames` has them,
//! and on standard error how many are damaged copies. `gen --stored-texts`: writes those that are stored.
//!
//! The lines of a name are its edges and then random ones without end. A line depends on the seed
//! and on its own number alone. `--from N` leaves out the first N lines, `--skip-edges` all edges.
//! Of the random lines about PERCENT in a hundred cannot be read.

mod agreeing;
mod cases;
mod clamped;
mod damages;
mod distribution_limits;
mod distributions;
mod draws;
mod equal;
mod fits;
mod floats;
mod history_edges;
mod internal;
mod kernel;
mod lists;
mod mapping_edges;
mod normal;
mod predictions;
mod random_cases;
mod random_distributions;
mod random_fits;
mod random_runs;
mod random_texts;
mod random_values;
mod run_edges;
mod run_models;
mod runs;
mod scales;
mod searches;
mod text_damage;
mod text_edges;
mod text_faults;
mod texts;
mod unreadable;
mod values;

use frames::write_frame;
use splitmix::SplitMix64;
use std::io::{self, BufWriter, Write};
use std::ops::Range;
use text_edges::Made;

/// The calls of a leaf: its edges, and how to make a random one.
enum Calls {
    OneWord(fn() -> Vec<u64>, fn(&mut SplitMix64) -> u64),
    Words(fn() -> Vec<Vec<u64>>, fn(&mut SplitMix64) -> Vec<u64>),
}

impl Calls {
    fn edges(&self) -> Vec<Vec<u64>> {
        match self {
            Self::OneWord(edges, _) => edges().into_iter().map(|word| vec![word]).collect(),
            Self::Words(edges, _) => edges(),
        }
    }

    fn random(&self, rng: &mut SplitMix64) -> Vec<u64> {
        match self {
            Self::OneWord(_, random) => vec![random(rng)],
            Self::Words(_, random) => random(rng),
        }
    }
}

/// The leaves by name. A new leaf is one more line here and the two functions that it names.
const LEAVES: &[(&str, Calls)] = &[
    ("next", Calls::OneWord(draws::word_edges, draws::word_random)),
    ("unit", Calls::OneWord(draws::word_edges, draws::word_random)),
    ("whole", Calls::Words(draws::whole_edges, draws::whole_random)),
    ("exp", Calls::OneWord(floats::exp_edges, floats::exp_random)),
    ("ln", Calls::OneWord(floats::ln_edges, floats::ln_random)),
    ("sqrt", Calls::OneWord(floats::sqrt_edges, floats::sqrt_random)),
    ("round", Calls::OneWord(floats::whole_edges, floats::whole_random)),
    ("floor", Calls::OneWord(floats::whole_edges, floats::whole_random)),
    ("distribution", Calls::Words(distribution_limits::edges, distribution_limits::random)),
    ("equal", Calls::Words(equal::edges, equal::random)),
    ("taken", Calls::Words(values::taken_edges, values::taken_random)),
    ("internal_bounds", Calls::Words(distribution_limits::edges, distribution_limits::random)),
    ("from_internal", Calls::Words(internal::edges, internal::random)),
    ("to_internal", Calls::Words(values::to_internal_edges, values::to_internal_random)),
    ("sample_random", Calls::Words(random_values::edges, random_values::random)),
    ("norm_pdf", Calls::OneWord(normal::edges, normal::random)),
    ("norm_cdf", Calls::OneWord(normal::edges, normal::random)),
    ("expected_improvement", Calls::Words(normal::improvement_edges, normal::improvement_random)),
    ("matern52", Calls::Words(kernel::edges, kernel::random)),
    ("to_normalized", Calls::Words(scales::edges, scales::random)),
    ("from_normalized", Calls::Words(scales::edges, scales::random)),
    ("fit_gp", Calls::Words(fits::edges, fits::random)),
    ("predict", Calls::Words(predictions::edges, predictions::random)),
    ("optimize_acquisition", Calls::Words(searches::edges, searches::random)),
    ("history", Calls::Words(history_edges::edges, random_cases::history)),
    ("mapping", Calls::Words(mapping_edges::edges, random_cases::model)),
    ("training", Calls::Words(mapping_edges::edges, random_cases::model)),
    ("run", Calls::Words(run_edges::edges, random_runs::words)),
];

/// The leaf that is timed.
const SEARCH: &str = "optimize_acquisition";

/// The leaf of pairs.
const RUN: &str = "run";

struct Options {
    name: &'static str,
    calls: &'static Calls,
    count: u64,
    seed: u64,
    from: u64,
    skip_edges: bool,
    unreadable_percent: u64,
}

fn parse_options(mut arguments: impl Iterator<Item = String>) -> Option<Options> {
    let asked = arguments.next()?;
    let (name, calls) = leaf(&asked)?;
    let mut options = Options {
        name,
        calls,
        count: parse_number(arguments.next())?,
        seed: parse_number(arguments.next())?,
        from: 0,
        skip_edges: false,
        unreadable_percent: 0,
    };
    while let Some(flag) = arguments.next() {
        match flag.as_str() {
            "--from" => options.from = parse_number(arguments.next())?,
            "--skip-edges" => options.skip_edges = true,
            "--unreadable" => options.unreadable_percent = parse_number(arguments.next())?,
            _ => return None,
        }
    }
    Some(options)
}

fn leaf(asked: &str) -> Option<&'static (&'static str, Calls)> {
    LEAVES.iter().find(|(name, _)| *name == asked)
}

fn parse_number(argument: Option<String>) -> Option<u64> {
    argument?.parse().ok()
}

fn line(name: &str, words: &[u64]) -> Vec<u8> {
    let mut text = name.to_owned();
    for word in words {
        text += &format!(" {word:016x}");
    }
    text.into_bytes()
}

fn random_line(options: &Options, number: u64) -> Vec<u8> {
    let mut rng = SplitMix64::for_line(options.seed, number);
    let mut line = line(options.name, &options.calls.random(&mut rng));
    if rng.below(100) < options.unreadable_percent {
        unreadable::spoil(&mut rng, &mut line);
    }
    line
}

fn write_lines(options: &Options) -> io::Result<()> {
    let mut output = BufWriter::new(io::stdout().lock());
    let edges = options.calls.edges();
    let skipped = if options.skip_edges { edges.len() as u64 } else { 0 };
    let first = options.from + skipped;
    for number in first..first + options.count {
        let mut line = match edges.get(number as usize) {
            Some(words) => line(options.name, words),
            None => random_line(options, number),
        };
        line.push(b'\n');
        output.write_all(&line)?;
    }
    output.flush()
}

/// None where the three numbers cannot be read.
fn write_searches(arguments: impl Iterator<Item = String>) -> Option<io::Result<()>> {
    let numbers: Vec<u64> =
        arguments.map(|argument| argument.parse().ok()).collect::<Option<_>>()?;
    let &[rows, columns, candidates, count] = &numbers[..] else { return None };
    let search = |number| line(SEARCH, &searches::timed(rows, columns, candidates, number));
    let text: Vec<u8> =
        (0..count).flat_map(|number| [search(number), vec![b'\n']].concat()).collect();
    Some(io::stdout().write_all(&text))
}

/// The seed and the numbers of COUNT SEED [--from N]; none where an argument cannot be read.
fn seed_and_numbers(mut arguments: impl Iterator<Item = String>) -> Option<(u64, Range<u64>)> {
    let (count, seed) = (parse_number(arguments.next())?, parse_number(arguments.next())?);
    let from = match arguments.next().as_deref() {
        None => 0,
        Some("--from") => parse_number(arguments.next())?,
        Some(_) => return None,
    };
    Some((seed, from..from + count))
}

/// None where an argument cannot be read.
fn write_pairs(arguments: impl Iterator<Item = String>) -> Option<io::Result<()>> {
    let (seed, mut numbers) = seed_and_numbers(arguments)?;
    let pairs = agreeing::Pairs::new(seed);
    let mut output = BufWriter::new(io::stdout().lock());
    let mut write = |words: &[u64]| output.write_all(&[&line(RUN, words)[..], b"\n"].concat());
    let written = numbers.try_for_each(|number| {
        let [first, second] = pairs.pair(number);
        write(&first).and_then(|()| write(&second))
    });
    Some(written.and_then(|()| output.flush()))
}

/// None where an argument cannot be read.
fn write_texts(arguments: impl Iterator<Item = String>) -> Option<io::Result<()>> {
    let (seed, numbers) = seed_and_numbers(arguments)?;
    let edges = text_edges::edges();
    let made = numbers.map(|number| match edges.get(number as usize) {
        Some(edge) => edge.clone(),
        None => random_texts::made(&mut SplitMix64::for_line(seed, number)),
    });
    Some(write_made(made))
}

fn write_made(texts: impl IntoIterator<Item = Made>) -> io::Result<()> {
    let mut output = BufWriter::new(io::stdout().lock());
    let (mut count, mut damaged) = (0, 0);
    for text in texts {
        write_frame(&mut output, &text.bytes)?;
        count += 1;
        damaged += u64::from(text.damaged);
    }
    eprintln!("{count} texts made, {damaged} of them damaged copies");
    output.flush()
}

fn write_names() -> io::Result<()> {
    LEAVES.iter().try_for_each(|(name, _)| writeln!(io::stdout(), "{name}"))
}

/// None for an unknown name.
fn write_edge_count(mut arguments: impl Iterator<Item = String>) -> Option<io::Result<()>> {
    let (_, calls) = leaf(&arguments.next()?)?;
    Some(writeln!(io::stdout(), "{}", calls.edges().len()))
}

fn main() -> io::Result<()> {
    let arguments = std::env::args().skip(1);
    let written = match std::env::args().nth(1).as_deref() {
        Some("--names") => Some(write_names()),
        Some("--edge-count") => write_edge_count(arguments.skip(1)),
        Some("--searches") => write_searches(arguments.skip(1)),
        Some("--pairs") => write_pairs(arguments.skip(1)),
        Some("--texts") => write_texts(arguments.skip(1)),
        Some("--stored-texts") => Some(write_made(text_edges::stored())),
        _ => parse_options(arguments).map(|options| write_lines(&options)),
    };
    written.unwrap_or_else(|| {
        eprintln!("usage: gen NAME COUNT SEED [--from N] [--skip-edges] [--unreadable PERCENT]");
        eprintln!("   or: gen --names, gen --edge-count NAME");
        eprintln!("   or: gen --searches ROWS COLUMNS CANDIDATES COUNT");
        eprintln!("   or: gen --pairs COUNT SEED [--from N], gen --texts COUNT SEED [--from N]");
        eprintln!("   or: gen --stored-texts");
        std::process::exit(2);
    })
}
