//! The real streams of tests/fortran: of each pair the stream that is built, and the count of the set, which is held to rows.txt. That
//! count was made neither by the library nor by the independent programs. All markings are tried where that stays quick, as for any
//! stream: of the four smallest trees with the two queries of arity 2.

use crate::asked::QuestionTrial;
use crate::cases::{lend, Case, Room};
use crate::check::StreamTrial;
use crate::pads::pads_of;
use crate::questions::Asked;
use crate::random::Random;
use crate::sets::{numbers_of, WholeSet};
use crate::verdict::{same, Verdict};
use fortran::Pair;
use records::set::MOST_RECORDS;
use std::collections::HashSet;

pub const KIND: &str = "real Fortran";

/// Sixteen trees with five queries each: a line that rows.txt has lost shows.
const PAIRS: usize = 80;

/// What stands in the buffers before a call is made from the seed.
pub struct RealStreams {
    seed: u64,
    pairs: Vec<Pair>,
}

impl RealStreams {
    pub fn all(seed: u64) -> RealStreams {
        RealStreams { seed, pairs: fortran::pairs() }
    }

    pub fn len(&self) -> usize {
        self.pairs.len()
    }

    pub fn check_number(&self) -> Verdict {
        let names: HashSet<&str> = self.pairs.iter().map(|pair| pair.name.as_str()).collect();
        same("different pairs", names.len(), PAIRS)
    }

    /// By which a case is shown and found in tests/fortran.
    pub fn label(&self, number: usize) -> String {
        format!("pair {number}, {}", self.pairs[number].name)
    }

    pub fn rows(&self, number: usize) -> u64 {
        self.pairs[number].rows
    }

    pub fn case(&self, number: usize) -> Case {
        lend(&mut self.random(number), KIND, self.pairs[number].input.clone(), Room::Enough, MOST_RECORDS)
    }

    pub fn build(&self, number: usize) -> StreamTrial {
        StreamTrial { case: self.case(number), label: self.label(number) }
    }

    /// Of the set that `records` builds, to which the library's is held; or the refusal.
    pub fn count(&self, number: usize) -> Result<QuestionTrial, String> {
        let case = self.case(number);
        let built = records::build(&case.input, &case.work, &case.table);
        let head = built.answer.map_err(|refusal| format!("{refusal:?} by records"))?;
        let set = WholeSet { head: numbers_of(&head), table: built.lent };
        let asked = Asked { asking: set.count(&mut self.random(number)), rows: None, promised: true };
        let (pads, counted) = (pads_of(&case.input), Some(self.rows(number)));
        Ok(QuestionTrial { kind: KIND, label: self.label(number), asked, pads, counted })
    }

    fn random(&self, number: usize) -> Random {
        Random::of(self.seed, number as u64)
    }
}
