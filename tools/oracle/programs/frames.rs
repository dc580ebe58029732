//! Texts one after the other: for each a line with its length in bytes, 16 lower-case hexadecimal
//! digits and a newline, and then as many bytes.

use std::io::{self, Read, Write};

/// Digits and a newline.
const HEAD_BYTES: usize = 17;

pub fn write_frame(output: &mut impl Write, text: &[u8]) -> io::Result<()> {
    writeln!(output, "{:016x}", text.len())?;
    output.write_all(text)
}

/// None at the end of the input.
pub fn read_frame(input: &mut impl Read) -> io::Result<Option<Vec<u8>>> {
    let mut head = vec![];
    input.take(HEAD_BYTES as u64).read_to_end(&mut head)?;
    if head.is_empty() {
        return Ok(None);
    }
    let digits = head.strip_suffix(b"\n").and_then(|digits| str::from_utf8(digits).ok());
    let length = digits.and_then(|digits| u64::from_str_radix(digits, 16).ok());
    let length = length.ok_or(io::ErrorKind::InvalidData)?;
    let mut text = vec![];
    input.take(length).read_to_end(&mut text)?;
    if text.len() as u64 == length {
        Ok(Some(text))
    } else {
        Err(io::ErrorKind::UnexpectedEof.into())
    }
}
