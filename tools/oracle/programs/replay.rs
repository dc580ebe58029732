//! `replay`: answers each of the texts of standard input as `propose` does, one answer after the other.

use frames::read_frame;
use std::io::{self, BufReader, BufWriter, Write};

fn main() -> io::Result<()> {
    let mut input = BufReader::new(io::stdin().lock());
    let mut output = BufWriter::new(io::stdout().lock());
    while let Some(text) = read_frame(&mut input)? {
        output.write_all(&propose_text::answer(&text))?;
    }
    output.flush()
}
