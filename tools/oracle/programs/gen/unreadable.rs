//! Turns a good line into one that cannot be read.

use splitmix::SplitMix64;

/// Bytes that are no digit, some of them next to the digits.
const BAD_DIGITS: &[u8] = b"AFGg/:`@ \t\r\0\xff";

const SPOILERS: &[fn(&mut Vec<u8>)] = &[
    // A blank line, and spaces and ends of line where none belongs.
    |line| line.clear(),
    |line| line.insert(0, b' '),
    |line| line.push(b' '),
    |line| line.insert(name_length(line), b' '),
    |line| line.push(b'\r'),
    // Unknown names.
    |line| line.insert(0, b'x'),
    |line| line.insert(name_length(line), b's'),
    |line| line[..1].make_ascii_uppercase(),
    |line| drop(line.drain(..name_length(line))),
    // Too many words, too few, none, and words of the wrong length.
    |line| line.extend(b" 0000000000000000"),
    |line| line.truncate(line.len() - 17),
    |line| line.truncate(name_length(line)),
    |line| line.push(b'0'),
    |line| line.truncate(line.len() - 1),
];

/// Long lines are rare, to keep files small.
pub fn spoil(rng: &mut SplitMix64, line: &mut Vec<u8>) {
    if rng.below(64) == 0 {
        lengthen(rng, line);
    } else if rng.below(2) == 0 {
        spoil_digit(rng, line);
    } else {
        rng.pick(SPOILERS)(line);
    }
}

fn spoil_digit(rng: &mut SplitMix64, line: &mut [u8]) {
    let digits: Vec<usize> =
        (name_length(line)..line.len()).filter(|&at| line[at] != b' ').collect();
    line[rng.pick(&digits)] = rng.pick(BAD_DIGITS);
}

/// More words than any leaf takes, up to about the longest line that is read.
fn lengthen(rng: &mut SplitMix64, line: &mut Vec<u8>) {
    let length = 64_998 + rng.below(5) as usize;
    while line.len() < length {
        line.extend(b" 0000000000000000");
    }
    line.truncate(length);
}

fn name_length(line: &[u8]) -> usize {
    line.iter().position(|&byte| byte == b' ').expect("a name and words")
}
