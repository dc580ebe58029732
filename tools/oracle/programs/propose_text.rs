//! The text of `propose`, written from document 01: three tables in, one out.

use arithmetic::Refusal;
use history::{HEAD_WORDS, SLOT_WORDS};
use leaf_lines::parse_words;
use optimizer::sampler::gp::GpSampler;
use records::DistributionWords;
use run::{Settings, sample};

const MALFORMED_TEXT: Refusal = Refusal(14);

/// The most words of a history.
pub const MAX_HISTORY_WORDS: usize = 8_192;

pub const SETTINGS_NAMES: &str = "startup candidates noise seed slots";
const ROW_NAMES: &str = "trial state value";
const SLOT_NAMES: &str = " id kind low high log stepped step taken";
pub const CALL_NAMES: &str = "trial kind low high log stepped step";
const ANSWER_NAMES: &str = "trial kind value drawn";

/// The names line of a history.
pub fn history_names(slots: u64) -> String {
    ROW_NAMES.to_owned() + &SLOT_NAMES.repeat(slots as usize)
}

/// A call on a sampler, with the history that is lent to it.
pub struct Call<'a> {
    pub sampler: &'a GpSampler,
    pub slots: u64,
    pub history: &'a [u64],
    pub trial: u64,
    pub asked: &'a DistributionWords,
}

/// The whole output for a whole input.
pub fn answer(text: &[u8]) -> Vec<u8> {
    output(text, ANSWER_NAMES, |call| vec![answer_call(call).to_vec()])
}

/// The whole output for a whole input: the names, and lines of words for each call.
pub fn output(text: &[u8], names: &str, call_lines: fn(&Call) -> Vec<Vec<u64>>) -> Vec<u8> {
    let mut output = format!("{names}\n");
    if let Err(Refusal(number)) = answer_lines(Lines { rest: text }, call_lines, &mut output) {
        add_line(&mut output, &[0, 0, number, 0]);
    }
    output.into_bytes()
}

/// The lines are judged in order; an error ends the run.
fn answer_lines(
    mut lines: Lines,
    call_lines: fn(&Call) -> Vec<Vec<u64>>,
    output: &mut String,
) -> Result<(), Refusal> {
    lines.read_names(SETTINGS_NAMES)?;
    let settings = Settings::of(&words(lines.read()?)?);
    let sampler = settings.sampler()?;
    lines.read_names(&history_names(settings.slots))?;
    let history = read_history(&mut lines, settings.slots)?;
    while !lines.are_over() {
        let (trial, asked) = call_words(lines.read()?)?;
        let (slots, history) = (settings.slots, &history[..]);
        let call = Call { sampler: &sampler, slots, history, trial, asked: &asked };
        call_lines(&call).iter().for_each(|words| add_line(output, words));
    }
    Ok(())
}

/// Up to the names line of the calls, that line included.
fn read_history(lines: &mut Lines, slots: u64) -> Result<Vec<u64>, Refusal> {
    let row_words = HEAD_WORDS + SLOT_WORDS * slots as usize;
    let mut history = vec![];
    loop {
        let line = lines.read()?;
        if line == CALL_NAMES.as_bytes() {
            return Ok(history);
        }
        let row = parse_words(line).filter(|row| row.len() == row_words).ok_or(MALFORMED_TEXT)?;
        history.extend(row);
        if history.len() > MAX_HISTORY_WORDS {
            return Err(MALFORMED_TEXT);
        }
    }
}

/// Trial, kind, value and words drawn; for a refused call trial, 0, the number and 0.
pub fn answer_call(call: &Call) -> [u64; 4] {
    match sample(call.sampler, call.slots, call.trial, call.asked, call.history) {
        Ok([_, kind, value, drawn]) => [call.trial, kind, value, drawn],
        Err(Refusal(number)) => [call.trial, 0, number, 0],
    }
}

/// The trial and the distribution asked.
fn call_words(line: &[u8]) -> Result<(u64, DistributionWords), Refusal> {
    let [trial, asked @ ..] = words::<7>(line)?;
    Ok((trial, asked))
}

/// A line of exactly N words.
fn words<const N: usize>(line: &[u8]) -> Result<[u64; N], Refusal> {
    parse_words(line).and_then(|words| words.try_into().ok()).ok_or(MALFORMED_TEXT)
}

fn add_line(output: &mut String, words: &[u64]) {
    let fields: Vec<String> = words.iter().map(|word| format!("{word:016x}")).collect();
    *output += &fields.join(" ");
    output.push('\n');
}

/// The lines that are not read yet.
struct Lines<'a> {
    rest: &'a [u8],
}

impl<'a> Lines<'a> {
    fn are_over(&self) -> bool {
        self.rest.is_empty()
    }

    /// The next line without its newline, which must be there.
    fn read(&mut self) -> Result<&'a [u8], Refusal> {
        let end = self.rest.iter().position(|&byte| byte == b'\n').ok_or(MALFORMED_TEXT)?;
        let line = &self.rest[..end];
        self.rest = &self.rest[end + 1..];
        Ok(line)
    }

    fn read_names(&mut self, names: &str) -> Result<(), Refusal> {
        if self.read()? == names.as_bytes() { Ok(()) } else { Err(MALFORMED_TEXT) }
    }
}
