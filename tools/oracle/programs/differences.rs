//! `differences INPUT EXPECTED ACTUAL SHOW`: compares two programs' answers line by line.
//! Writes the number of differing lines on standard output, the first SHOW of them on standard error.

use std::fs;

/// The lines of a file, newlines included, so that a missing last one is a difference.
fn lines(text: &[u8]) -> impl Iterator<Item = &[u8]> {
    text.split_inclusive(|&byte| byte == b'\n')
}

fn show(line: Option<&[u8]>) -> String {
    match line {
        None => "no line".to_owned(),
        Some(line) => line.iter().take(200).map(|byte| byte.escape_ascii().to_string()).collect(),
    }
}

fn count_differences(input: &[u8], expected: &[u8], actual: &[u8], shown: u64) -> u64 {
    let (mut input, mut expected, mut actual) = (lines(input), lines(expected), lines(actual));
    let mut differences = 0;
    loop {
        let (call, want, got) = (input.next(), expected.next(), actual.next());
        if want.is_none() && got.is_none() {
            return differences;
        }
        if want != got {
            differences += 1;
            if differences <= shown {
                eprintln!(
                    "  line     {}\n  expected {}\n  answered {}",
                    show(call),
                    show(want),
                    show(got)
                );
            }
        }
    }
}

fn main() {
    let arguments: Vec<String> = std::env::args().skip(1).collect();
    let [input, expected, actual, shown] = arguments.as_slice() else {
        panic!("usage: differences INPUT EXPECTED ACTUAL SHOW");
    };
    let read = |path| fs::read(path).expect("a file that can be read");
    let shown = shown.parse().expect("a number of lines to show");
    println!("{}", count_differences(&read(input), &read(expected), &read(actual), shown));
}
