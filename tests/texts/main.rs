//! Reads a bracketed text from standard input and prints what the program `tree` must print for it; with the word `back` it reads
//! tree records and prints their text.

use std::io::{Read, Write};

fn main() -> std::io::Result<()> {
    let back = std::env::args().nth(1).map_or(false, |word| word == "back");
    let mut input = Vec::new();
    std::io::stdin().read_to_end(&mut input)?;
    let told = if back { texts::text_of(&input).unwrap_or(b"refused 15\n".to_vec()) } else { texts::told(&input) };
    std::io::stdout().write_all(&told)
}
