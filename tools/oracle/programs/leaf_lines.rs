//! The text of `leaf`: lines of a name and words in, lines of a number and words out.

use arithmetic::Refusal;
use std::io::{self, BufRead, BufWriter, Write};

/// The result words, or a refusal.
pub type Answer = Result<Vec<u64>, Refusal>;

/// Takes the words after the name; none where their count is wrong.
pub type Leaf = fn(&[u64]) -> Option<Answer>;

/// The longest line that is read, its newline not counted.
const MAX_LINE: usize = 65_000;

const NAN_WORD: u64 = 0x7ff8_0000_0000_0000;

/// A word as a float; every NaN pattern is the one NaN.
pub fn word_to_float(word: u64) -> f64 {
    let x = f64::from_bits(word);
    if x.is_nan() { f64::from_bits(NAN_WORD) } else { x }
}

/// A float as a word; every NaN is written alike.
pub fn float_to_word(x: f64) -> u64 {
    if x.is_nan() { NAN_WORD } else { x.to_bits() }
}

/// Answers every line of standard input by the table of leaves.
pub fn answer_input(leaves: &[(&str, Leaf)]) -> io::Result<()> {
    let mut input = io::stdin().lock();
    let mut output = BufWriter::new(io::stdout().lock());
    let mut line = Vec::new();
    while input.read_until(b'\n', &mut line)? > 0 {
        let text = line.strip_suffix(b"\n").unwrap_or(&line);
        write_answer(&mut output, answer_line(leaves, text))?;
        line.clear();
    }
    output.flush()
}

/// None for a line that cannot be read.
fn answer_line(leaves: &[(&str, Leaf)], line: &[u8]) -> Option<Answer> {
    if line.len() > MAX_LINE {
        return None;
    }
    let mut fields = line.split(|&byte| byte == b' ');
    let name = fields.next()?;
    let (_, leaf) = leaves.iter().find(|(known, _)| known.as_bytes() == name)?;
    let words: Vec<u64> = fields.map(parse_word).collect::<Option<_>>()?;
    leaf(&words)
}

/// Words with one space between; none for any other text.
pub fn parse_words(text: &[u8]) -> Option<Vec<u64>> {
    text.split(|&byte| byte == b' ').map(parse_word).collect()
}

/// Sixteen lower-case hexadecimal digits.
fn parse_word(field: &[u8]) -> Option<u64> {
    if field.len() != 16 {
        return None;
    }
    field.iter().try_fold(0, |word, &digit| Some(word << 4 | parse_digit(digit)?))
}

fn parse_digit(digit: u8) -> Option<u64> {
    match digit {
        b'0'..=b'9' => Some(u64::from(digit - b'0')),
        b'a'..=b'f' => Some(u64::from(digit - b'a' + 10)),
        _ => None,
    }
}

fn write_answer(output: &mut impl Write, answer: Option<Answer>) -> io::Result<()> {
    match answer {
        None => write!(output, "?")?,
        Some(Err(Refusal(number))) => write!(output, "{number:016x}")?,
        Some(Ok(words)) => {
            write!(output, "{:016x}", 0)?;
            for word in words {
                write!(output, " {word:016x}")?;
            }
        }
    }
    writeln!(output)
}
