//! `try_texts PROGRAM FOLDER < TEXTS`: gives PROGRAM each of the texts of standard input, one process
//! for each, and compares the whole output with the oracle's. Some go in small pieces. The first five
//! that differ are saved in FOLDER. Writes a summary and ends with 1 if any differ.

use frames::read_frame;
use splitmix::SplitMix64;
use std::collections::BTreeMap;
use std::fs;
use std::io::{self, BufReader, Read, Write};
use std::path::Path;
use std::process::{ChildStdin, Command, ExitCode, Stdio};
use std::thread::{scope, sleep};
use std::time::Duration;

const SAVED_DIFFERENCES: u64 = 5;

/// One text in so many goes in pieces.
const IN_PIECES: u64 = 8;
const MOST_PIECES: u64 = 12;
/// Long enough for the program to read what is there.
const PAUSE: Duration = Duration::from_micros(100);

/// The numbers that end a run.
const ENDS: [u64; 2] = [1, 14];

#[derive(Default)]
struct Summary {
    texts: u64,
    in_pieces: u64,
    answered: u64,
    /// How many lines have each number.
    refused: BTreeMap<u64, u64>,
    differences: u64,
}

impl Summary {
    /// Counts the lines of one of the oracle's outputs.
    fn add(&mut self, output: &[u8]) {
        self.texts += 1;
        let output = str::from_utf8(output).expect("the oracle writes digits");
        for line in output.lines().skip(1) {
            let words: Vec<u64> = line.split(' ').map(word).collect();
            match words[..] {
                [_, 0, number, _] => *self.refused.entry(number).or_default() += 1,
                _ => self.answered += 1,
            }
        }
    }

    fn write(&self) {
        let [out_of_range, malformed] =
            ENDS.map(|number| self.refused.get(&number).copied().unwrap_or(0));
        println!(
            "{} texts, {} of them in pieces; {out_of_range} ended with 1, {malformed} with 14",
            self.texts, self.in_pieces
        );
        let others = self.refused.iter().filter(|(number, _)| !ENDS.contains(number));
        let others: Vec<String> =
            others.map(|(number, count)| format!("{count} with {number}")).collect();
        println!("{} calls answered, refused {}", self.answered, others.join(", "));
        println!("{} differences", self.differences);
    }
}

fn word(field: &str) -> u64 {
    u64::from_str_radix(field, 16).expect("the oracle writes words")
}

/// The pieces in which a text is given.
fn pieces<'a>(rng: &mut SplitMix64, text: &'a [u8]) -> Vec<&'a [u8]> {
    if rng.below(IN_PIECES) > 0 {
        return vec![text];
    }
    let mut cuts: Vec<usize> =
        (0..=rng.below(MOST_PIECES)).map(|_| rng.below(text.len() as u64 + 1) as usize).collect();
    cuts.extend([0, text.len()]);
    cuts.sort_unstable();
    cuts.windows(2).map(|ends| &text[ends[0]..ends[1]]).collect()
}

/// A program that ends before it has read all does not want the rest.
fn feed(mut input: ChildStdin, pieces: &[&[u8]]) {
    for (number, piece) in pieces.iter().enumerate() {
        if number > 0 {
            sleep(PAUSE);
        }
        if input.write_all(piece).is_err() {
            return;
        }
    }
}

/// What the program writes; a line more where it ends with an error.
fn output_of(program: &str, pieces: &[&[u8]]) -> io::Result<Vec<u8>> {
    let mut child = Command::new(program).stdin(Stdio::piped()).stdout(Stdio::piped()).spawn()?;
    let input = child.stdin.take().expect("a pipe");
    let mut output = vec![];
    scope(|scope| {
        scope.spawn(|| feed(input, pieces));
        child.stdout.take().expect("a pipe").read_to_end(&mut output)
    })?;
    let status = child.wait()?;
    if !status.success() {
        output.extend(format!("ended with {status}\n").bytes());
    }
    Ok(output)
}

/// The text, what was expected and what was answered.
fn save(folder: &Path, number: u64, contents: [&[u8]; 3]) -> io::Result<()> {
    fs::create_dir_all(folder)?;
    for (ending, content) in ["text", "expected", "answered"].into_iter().zip(contents) {
        fs::write(folder.join(format!("{number}.{ending}")), content)?;
    }
    println!("differs: {}", folder.join(format!("{number}.text")).display());
    Ok(())
}

fn try_all(program: &str, folder: &Path) -> io::Result<Summary> {
    let mut input = BufReader::new(io::stdin().lock());
    let mut summary = Summary::default();
    while let Some(text) = read_frame(&mut input)? {
        let mut rng = SplitMix64::for_line(1, summary.texts);
        let expected = propose_text::answer(&text);
        let pieces = pieces(&mut rng, &text);
        let answered = output_of(program, &pieces)?;
        summary.add(&expected);
        summary.in_pieces += u64::from(pieces.len() > 1);
        if answered != expected {
            summary.differences += 1;
            if summary.differences <= SAVED_DIFFERENCES {
                save(folder, summary.texts, [&text, &expected, &answered])?;
            }
        }
    }
    Ok(summary)
}

fn main() -> io::Result<ExitCode> {
    let arguments: Vec<String> = std::env::args().skip(1).collect();
    let [program, folder] = arguments.as_slice() else {
        panic!("usage: try_texts PROGRAM FOLDER < TEXTS");
    };
    let summary = try_all(program, Path::new(folder))?;
    summary.write();
    Ok(if summary.differences == 0 { ExitCode::SUCCESS } else { ExitCode::FAILURE })
}
