//! Damaged copies of a text: at every place, and at random ones.

use crate::text_faults::FAULTS;
use crate::texts::Lines;
use splitmix::SplitMix64;

/// Bytes that are put in: digits, bytes next to them, white space and others.
const BYTES: &[u8] = b"0123456789abcdefAFg/:`@ \n\n \t\r\0\x0b\x7f\x80\xff-+x_,;";

/// Cut off at every place.
pub fn truncations(text: &[u8]) -> Vec<Vec<u8>> {
    (0..text.len()).map(|length| text[..length].to_vec()).collect()
}

/// Every byte changed to another.
pub fn changes(text: &[u8]) -> Vec<Vec<u8>> {
    let mut rng = SplitMix64::for_line(2, text.len() as u64);
    let change = |place: usize| {
        let mut copy = text.to_vec();
        copy[place] = other_byte(&mut rng, text[place]);
        copy
    };
    (0..text.len()).map(change).collect()
}

/// One line or one byte of it, now and then two of them.
pub fn damaged(rng: &mut SplitMix64, lines: Lines) -> Vec<u8> {
    let mut lines = lines;
    damage(rng, &mut lines);
    if rng.below(8) == 0 {
        damage(rng, &mut lines);
    }
    let text = lines.concat();
    match rng.below(8) {
        0 => text[..rng.below(text.len() as u64 + 1) as usize].to_vec(),
        _ => text,
    }
}

fn damage(rng: &mut SplitMix64, lines: &mut Lines) {
    let Some(place) = pick_line(rng, lines) else { return };
    match rng.below(16) {
        0 => drop(lines.remove(place)),
        1 => lines.insert(place, lines[place].clone()),
        2 => {
            let next = (place + 1) % lines.len();
            lines.swap(place, next);
        }
        3 => {
            let other = rng.below(lines.len() as u64) as usize;
            lines.swap(place, other);
        }
        4 => lines.truncate(place),
        5 if lines[place].len() > 20 => rng.pick(FAULTS)(&mut lines[place]),
        _ => damage_byte(rng, &mut lines[place]),
    }
}

/// As often one of the first or the last few lines as any.
fn pick_line(rng: &mut SplitMix64, lines: &Lines) -> Option<usize> {
    let count = lines.len() as u64;
    let few = count.min(3);
    let place = match rng.below(4) {
        _ if count == 0 => return None,
        0 => rng.below(few),
        1 => count - 1 - rng.below(few),
        _ => rng.below(count),
    };
    Some(place as usize)
}

fn damage_byte(rng: &mut SplitMix64, line: &mut Vec<u8>) {
    let place = rng.below(line.len().max(1) as u64) as usize;
    match rng.below(4) {
        _ if line.is_empty() => line.push(b' '),
        0 => drop(line.remove(place)),
        1 => line.insert(place, any_byte(rng)),
        _ => line[place] = other_byte(rng, line[place]),
    }
}

fn any_byte(rng: &mut SplitMix64) -> u8 {
    if rng.below(8) == 0 { rng.next_word() as u8 } else { rng.pick(BYTES) }
}

fn other_byte(rng: &mut SplitMix64, old: u8) -> u8 {
    loop {
        let byte = any_byte(rng);
        if byte != old {
            return byte;
        }
    }
}
