//! The image of a text with a query behind it, for a build: it is read as a tree, so that refusals 1 and 2 never come.

use crate::cases::{lend, Case, Room};
use crate::conversion::Conversion;
use crate::random::Random;
use crate::streams::{places_seen, Labels, BRANCH, MOST_RULES, PAD};
use crate::verdict::{same, Verdict};
use records::set::{count_of, MOST_RECORDS};
use records::Refusal;

pub const KIND: &str = "images of texts, with a query";

/// One accepted text in so many is built.
const EVERY: usize = 10;

/// With arity 2 a branch's label has 16 rules and pads have 4, three of them never used: for more labels there are not enough.
const MOST_LABELS: usize = (MOST_RULES - 4) / 16;

/// A larger tree with arity 1 has few markings, each of which would take long to try.
const MOST_BYTES: usize = 200;

/// What is built, and what is known of it from how it was made.
pub struct Queried {
    pub case: Case,
    nodes: usize,
    rows: u128,
}

/// Of the text with this number, if it is accepted and one of those that are built.
pub fn of_text(text: &Conversion, number: usize) -> Option<Queried> {
    if number % EVERY != 0 {
        return None;
    }
    let image = texts::image_of(&text.input)?;
    Some(queried(&mut Random::of(number as u64, text.bytes), &image))
}

/// Every row of written nodes is accepted; or none is, where no branch may be marked, or where the tree has too many labels, since a
/// branch that has no rule ends every run. The query would mark the pads too: these rules have to be passed over.
fn queried(random: &mut Random, image: &[u8]) -> Queried {
    let written: Vec<u8> = image.chunks(2).filter(|record| record[0] == BRANCH).map(|record| record[1]).collect();
    let mut labels = written.clone();
    labels.sort();
    labels.dedup();
    let has_all = labels.len() <= MOST_LABELS;
    labels.truncate(MOST_LABELS);
    let arity = if image.len() > MOST_BYTES { 2 } else { random.between(1, 2) };
    let branches = random.chance(85);
    let query = places_seen(arity, 1 << arity, &Labels { leaf: vec![PAD], branch: labels }, branches);
    let input = [image, &query.shuffled(random).concat()].concat();
    let rows = if branches && has_all { (written.len() as u128).pow(arity as u32) } else { 0 };
    let case = lend(random, KIND, input, Room::Enough, MOST_RECORDS);
    Queried { case, nodes: image.len() / 2, rows }
}

impl Queried {
    /// By `records` and by `markings`, to which the library's build is held in all: nothing is wrong with the tree, nor with the query,
    /// of so many bytes every two are a node, and the rows are as many as they must be.
    pub fn check(&self) -> Verdict {
        same("nodes by markings", markings::read(&self.case.input).map(|stream| stream.nodes()), Ok(self.nodes))?;
        let built = records::build(&self.case.input, &self.case.work, &self.case.table);
        match built.answer {
            Ok(head) => same("rows by records and as known", count_of(&head, &built.lent), self.rows),
            // a tree that makes more records than may be
            Err(refusal) if refusal == Refusal::nowhere(6) => Ok(()),
            Err(refusal) => Err(format!("{refusal:?} by records")),
        }
    }
}
