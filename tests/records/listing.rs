//! What the listing program prints for an input.

use crate::building::build;
use crate::set::{count_of, rows_of, Record};
use crate::Refusal;

const MOST_INPUT: usize = 16_384;
const TABLE: usize = 2_000;
const WORK: usize = 16_384;

/// The text; none where there are more than `most` rows.
pub fn listing(input: &[u8], most: usize) -> Option<String> {
    if input.len() > MOST_INPUT {
        return Some(refused(Refusal::nowhere(14)));
    }
    let built = build(input, &[0; WORK], &[Record::default(); TABLE]);
    let head = match built.answer {
        Ok(head) => head,
        Err(refusal) => return Some(refused(refusal)),
    };
    let mut text = format!("records {}\nrows {}\n", head.used, count_of(&head, &built.lent));
    for row in rows_of(&head, &built.lent, most)? {
        let nodes: Vec<String> = row.iter().map(|node| node.to_string()).collect();
        text += &(nodes.join(" ") + "\n");
    }
    Some(text)
}

/// With the position where it has one (request 2026-04).
fn refused(Refusal { number, position }: Refusal) -> String {
    match position {
        Some(position) => format!("refused {number} at {position}\n"),
        None => format!("refused {number}\n"),
    }
}
