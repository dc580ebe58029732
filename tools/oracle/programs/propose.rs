//! `propose`: answers standard input, a text of three tables, with the Rust.

use std::io::{self, Read, Write};

fn main() -> io::Result<()> {
    let mut text = vec![];
    io::stdin().read_to_end(&mut text)?;
    io::stdout().write_all(&propose_text::answer(&text))
}
