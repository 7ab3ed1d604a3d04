//! Digits of a pattern by its recurrence, after the first 15 or 23 digits of standard input.
//!
//! ```text
//! patterns 15 COUNT
//! ```

use reference::judging::pattern_digits;
use std::io::{stdin, stdout, Read, Result, Write};

fn main() -> Result<()> {
    let mut numbers = std::env::args().skip(1).filter_map(|text| text.parse().ok());
    let (stages, count) = match (numbers.next(), numbers.next()) {
        (Some(stages @ (15 | 23)), Some(count)) => (stages, count),
        _ => {
            eprintln!("usage: patterns 15|23 COUNT");
            std::process::exit(2);
        }
    };
    let mut first = vec![0; stages];
    stdin().read_exact(&mut first)?;
    let first: Vec<u8> = first.iter().map(|sign| sign - b'0').collect();
    let digits = pattern_digits(stages as u64, &first, count);
    let text: Vec<u8> = digits.iter().map(|digit| b'0' + digit).collect();
    stdout().write_all(&text)
}
