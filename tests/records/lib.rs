//! Document 01, with requests 2026-02 and 2026-04, followed with plain vectors: the exact records of a build, the answers to every
//! question, each refusal in the paper's order, and what every lent buffer holds afterwards. It shares no code with the library nor
//! with `markings`.
//!
//! - `stream`: 'The input stream', refusals 1 to 4 and their positions
//! - `building`: 'Building', refusals 5 and 6
//! - `set`: 'Records', what a set lists and when it is sound
//! - `questions`: 'Questions on a set', refusals 5 to 13
//! - `listing`: what the listing program prints

pub mod building;
pub mod listing;
pub mod questions;
pub mod set;
pub mod stream;

pub use building::{build, needs, Built};
pub use set::{Head, Record, Set, BLANK};

/// A call's answer or the number that refuses it, of a build with the position, and its lent buffers afterwards: work, and the table,
/// target or output.
#[derive(Clone, Debug, PartialEq)]
pub struct After<A, L, R = u8> {
    pub answer: Result<A, R>,
    pub work: Vec<u64>,
    pub lent: L,
}

/// The number that refuses a stream, and with 1 to 4 the byte position in it (request 2026-04); the others have none.
#[derive(Clone, Copy, Debug, PartialEq)]
pub struct Refusal {
    pub number: u8,
    pub position: Option<usize>,
}

impl Refusal {
    pub fn at(position: usize, number: u8) -> Refusal {
        Refusal { number, position: Some(position) }
    }

    pub fn nowhere(number: u8) -> Refusal {
        Refusal { number, position: None }
    }
}

fn refuse_unless(number: u8, right: bool) -> Result<(), u8> {
    if right {
        Ok(())
    } else {
        Err(number)
    }
}

/// Work: its stated first part is zero, the rest unchanged; 1 to 5 leave all of it unchanged.
fn work_after<A>(answer: &Result<A, u8>, stated: usize, work: &[u64]) -> Vec<u64> {
    match answer {
        Err(1..=5) => work.to_vec(),
        _ => written(&vec![0; stated], work),
    }
}

/// The first entries written, the rest unchanged.
fn written<T: Clone>(first: &[T], before: &[T]) -> Vec<T> {
    let mut after = before.to_vec();
    after[..first.len()].clone_from_slice(first);
    after
}
