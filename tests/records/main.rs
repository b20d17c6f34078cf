//! Reads a stream from standard input and prints what the listing program must print for it.

use std::error::Error;
use std::io::{Read, Write};

/// Enough for any listing that one would look at.
const MOST_ROWS: usize = 10_000_000;

fn main() -> Result<(), Box<dyn Error>> {
    let mut input = Vec::new();
    std::io::stdin().read_to_end(&mut input)?;
    match records::listing::listing(&input, MOST_ROWS) {
        Some(text) => Ok(std::io::stdout().write_all(text.as_bytes())?),
        None => Err("too many rows to list".into()),
    }
}
