//! Reads a stream from standard input, tries all markings and prints the accepted rows, ascending: first how many, then a line a row.

use std::io::{Read, Write};

/// Far more than the comparison tries; a larger number would run for hours.
const MOST_MARKINGS: u64 = 1 << 28;

fn text_of(input: &[u8]) -> String {
    let stream = match markings::read(input) {
        Ok(stream) => stream,
        Err(refusal) => return format!("refused {} at {}\n", refusal.number, refusal.position),
    };
    if stream.markings() > MOST_MARKINGS {
        return format!("{} markings are too many to try\n", stream.markings());
    }
    let rows = stream.accepted_rows();
    let mut text = format!("rows {}\n", rows.len());
    for row in rows {
        let nodes: Vec<String> = row.iter().map(|node| node.to_string()).collect();
        text += &(nodes.join(" ") + "\n");
    }
    text
}

fn main() -> std::io::Result<()> {
    let mut input = Vec::new();
    std::io::stdin().read_to_end(&mut input)?;
    std::io::stdout().write_all(text_of(&input).as_bytes())
}
