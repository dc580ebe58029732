//! Texts that are malformed: a fault in each line in turn, and faults of a whole text.

use crate::cases::Case;
use crate::distributions::{choice, int};
use crate::run_models::{of_mixed, settings, unit};
use crate::runs::Settings;
use crate::texts::{Lines, Text, names_line, word_line};
use propose_text::{CALL_NAMES, SETTINGS_NAMES, history_names};
use std::slice::from_ref;

/// A change of a line, its newline included.
pub type Fault = fn(&mut Vec<u8>);

pub const FAULTS: &[Fault] = &[
    // Ends of a line.
    |line| line.truncate(last(line)),
    |line| line.insert(last(line), b'\r'),
    |line| replace(line, last(line), b"\r"),
    |line| line.push(b'\r'),
    |line| replace(line, last(line), b"\0"),
    |line| replace(line, last(line), b" \n"),
    |line| line.insert(last(line), b'\t'),
    |line| line.insert(last(line), b'\0'),
    |line| line.insert(last(line), 0x0b),
    // Blank lines and others between.
    |line| line.insert(0, b'\n'),
    |line| line.push(b'\n'),
    |line| insert(line, 0, b" \n"),
    |line| insert(line, 0, b"\r\n"),
    |line| insert(line, 0, b"#\n"),
    |line| insert(line, 0, b"0\n"),
    |line| line.truncate(0),
    |line| line.drain(..last(line)).for_each(drop),
    |line| line.extend_from_within(..),
    // Before a line.
    |line| line.insert(0, b' '),
    |line| line.insert(0, b'\t'),
    |line| line.insert(0, b'\0'),
    |line| insert(line, 0, b"\xef\xbb\xbf"),
    |line| insert(line, 0, b"\xff\xfe"),
    |line| insert(line, 0, b"0x"),
    |line| line.insert(0, b'0'),
    |line| line.insert(0, b'+'),
    // Between words.
    |line| line.insert(space(line), b' '),
    |line| line.insert(last_space(line), b' '),
    |line| replace(line, space(line), b"\t"),
    |line| replace(line, last_space(line), b"\t"),
    |line| replace(line, space(line), b","),
    |line| replace(line, space(line), b"\n"),
    |line| replace(line, last_space(line), b"\n"),
    |line| replace(line, space(line), b"\0"),
    |line| replace(line, space(line), b"\xc2\xa0"),
    |line| remove(line, space(line)),
    |line| remove(line, last_space(line)),
    // Within words.
    |line| line[..4].make_ascii_uppercase(),
    |line| line[0] = b'A',
    |line| set_last(line, b'F'),
    |line| set_last(line, b'g'),
    |line| set_last(line, b'/'),
    |line| set_last(line, b':'),
    |line| set_last(line, b'`'),
    |line| set_last(line, b'@'),
    |line| set_last(line, b'O'),
    |line| line[0] = b'-',
    |line| line[0] = b'\0',
    |line| line[0] = 0xff,
    |line| set_last(line, b' '),
    |line| set_last(line, 0x80),
    |line| line[7] = b'_',
    |line| remove(line, 0),
    |line| remove(line, last(line) - 1),
    |line| line.insert(last(line), b'0'),
    |line| line.insert(last(line), b's'),
    // A word too many or too few, and long lines.
    |line| insert(line, last(line), b" 0000000000000000"),
    |line| insert(line, 0, b"0000000000000000 "),
    |line| insert(line, last(line), b" taken"),
    |line| drop(line.drain(last_space(line)..last(line))),
    |line| drop(line.drain(..=space(line))),
    |line| lengthen(line, 200),
    |line| lengthen(line, 2_000),
];

fn last(line: &[u8]) -> usize {
    line.len() - 1
}

fn space(line: &[u8]) -> usize {
    line.iter().position(|&byte| byte == b' ').unwrap_or(0)
}

fn last_space(line: &[u8]) -> usize {
    line.iter().rposition(|&byte| byte == b' ').unwrap_or(0)
}

fn insert(line: &mut Vec<u8>, place: usize, bytes: &[u8]) {
    drop(line.splice(place..place, bytes.iter().copied()));
}

fn replace(line: &mut Vec<u8>, place: usize, bytes: &[u8]) {
    drop(line.splice(place..=place, bytes.iter().copied()));
}

fn remove(line: &mut Vec<u8>, place: usize) {
    line.remove(place);
}

/// The last byte before the newline.
fn set_last(line: &mut [u8], byte: u8) {
    line[line.len() - 2] = byte;
}

/// By so many words.
fn lengthen(line: &mut Vec<u8>, words: usize) {
    insert(line, last(line), &b" 0000000000000000".repeat(words));
}

/// Two rows of one slot, and calls that discover, end discovery and get a model.
pub fn good() -> Text {
    let case = of_mixed(1, 2);
    let calls = Text::new(settings(1, 1, 2), &case.row_words());
    calls.ask(7, &unit()).ask(8, &unit()).ask(9, &unit())
}

/// The good one, one without rows, one of two slots, one without calls, and two whose settings are
/// out of range.
fn originals() -> Vec<Text> {
    let first = good();
    let without_rows = Text::new(first.settings, &[]).ask(7, &choice(5)).ask(7, &unit());
    let without_calls = Text { calls: vec![], ..first.clone() };
    let bad_seed = Settings { seed: 0, ..first.settings };
    let bad_slots = Settings { slots: 21, ..first.settings };
    let two = of_mixed(2, 1);
    let two = Text::new(settings(2, 0, 1), &two.row_words()).ask_each(7, &two.dimensions);
    vec![
        first.clone(),
        without_rows,
        Text { settings: bad_seed, ..first.clone() },
        two,
        without_calls,
        Text { settings: bad_slots, ..first },
    ]
}

/// All faults before any comes again, each time in other lines.
pub fn in_lines() -> Vec<Vec<u8>> {
    originals().iter().flat_map(faulty_copies).collect()
}

fn faulty_copies(text: &Text) -> Vec<Vec<u8>> {
    let lines = text.lines();
    let places = 0..lines.len();
    let round = |shift| {
        let lines = &lines;
        (shift..).zip(FAULTS).map(move |(place, fault)| {
            let mut copy = lines.clone();
            fault(&mut copy[place % lines.len()]);
            copy.concat()
        })
    };
    places.flat_map(round).collect()
}

/// Every names line before each line and in its place.
pub fn names() -> Vec<Vec<u8>> {
    let lines = good().lines();
    let mut names: Vec<Vec<u8>> = vec![names_line(SETTINGS_NAMES), names_line(CALL_NAMES)];
    names.extend((0..4).map(|slots| names_line(&history_names(slots))));
    names.push(names_line("trial kind value drawn"));
    let at_place = |place: usize| {
        let lines = &lines;
        let with = move |name: &Vec<u8>, end: usize| {
            [&lines[..place], from_ref(name), &lines[end..]].concat().concat()
        };
        let names = &names;
        names
            .iter()
            .flat_map(move |name| [with(name, place), with(name, (place + 1).min(lines.len()))])
    };
    (0..=lines.len()).flat_map(at_place).collect()
}

/// The first lines of a text, what comes before it or after it, and changes of all lines.
pub fn of_texts() -> Vec<Vec<u8>> {
    let lines = good().lines();
    let whole = lines.concat();
    let beginnings = (0..lines.len()).map(|count| lines[..count].concat());
    let endings: [&[u8]; 9] =
        [b"\n", b" ", b"\0", b"\x1a", b"0", b"\r\n", b"end\n", b"\n\n", b"0000000000000007"];
    let endings = endings.map(|ending| [&whole, ending].concat());
    let again = [0, 1, 2, 3, 5].map(|place| [&whole[..], &lines[place]].concat());
    let twice = [&whole[..], &whole].concat();
    let marks: [&[u8]; 3] = [b"\xef\xbb\xbf", b"\xff\xfe", b"\n"];
    let marks = marks.map(|mark| [mark, &whole].concat());
    let two_names = [&lines[..6], &lines[5..]].concat().concat();
    let returns = lines.iter().map(|line| [&line[..line.len() - 1], b"\r\n"].concat()).collect();
    let returns: Lines = returns;
    let few: [&[u8]; 6] = [b"\n", b"\r\n", b" ", b"\0", b"startup", b"\xef\xbb\xbf"];
    let long = [vec![b'0'; 70_000], vec![b' '; 300], b"trial ".repeat(500)];
    beginnings
        .chain(endings)
        .chain(again)
        .chain(marks)
        .chain([twice, two_names, returns.concat(), whole.to_ascii_uppercase()])
        .chain(few.map(<[u8]>::to_vec))
        .chain(long.clone())
        .chain(long.map(|ending| [&whole[..], &ending].concat()))
        .collect()
}

/// A settings line out of range, with and without further lines, good ones and others; and one that
/// is malformed text beside that.
pub fn settings_first() -> Vec<Vec<u8>> {
    let good = good();
    let bad = [
        Settings { startup: u64::MAX, ..good.settings },
        Settings { slots: 0, ..good.settings },
        Settings { slots: u64::MAX, ..good.settings },
        Settings { noise: f64::NAN.to_bits(), ..good.settings },
    ];
    let of_settings = |settings| {
        let text = Text { settings, ..good.clone() };
        let lines = text.lines();
        let two = lines[..2].concat();
        let tail = |tail: &[u8]| [&two, tail].concat();
        vec![
            two.clone(),
            two[..two.len() - 1].to_vec(),
            tail(b"\n"),
            tail(b"\0"),
            tail(b"trial state value\n"),
            tail(CALL_NAMES.as_bytes()),
            lines[..3].concat(),
            [&lines[..1], &[word_line(&[0; 6])], &lines[2..]].concat().concat(),
            [&lines[..1], &[word_line(&[0; 4])], &lines[2..]].concat().concat(),
        ]
    };
    bad.into_iter().flat_map(of_settings).collect()
}

/// Rows of one word or one slot too few or too many, in each row.
pub fn row_lengths() -> Vec<Vec<u8>> {
    let case = Case::fixed(2, 3);
    let text = Text::new(settings(2, 1, 2), &case.row_words()).ask(7, &int(0, 9, false, None));
    let lines = text.lines();
    let row = case.rows[0].words();
    let lengths = [0, 1, 3, 7, 10, 11, 18, 20, 27, 38];
    let rows = lengths.map(|length| {
        let words: Vec<u64> = row.iter().copied().cycle().take(length).collect();
        word_line(&words)
    });
    let at_place = |place: usize| {
        let lines = &lines;
        let rows = rows.clone();
        rows.map(move |row| [&lines[..place], &[row], &lines[place + 1..]].concat().concat())
    };
    (3..6).flat_map(at_place).collect()
}
