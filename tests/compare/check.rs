//! Judges one stream: the two programs against each other, and the library, where the driver ran, against both.

use crate::call::{Buffer, Call, Left};
use crate::cases::Case;
use crate::pads::{self, Met};
use crate::sets::numbers_of;
use crate::tally::Tally;
use crate::trials::{Gave, Trial};
use crate::verdict::{same, same_entries, Verdict};
use markings::Stream;
use records::set::{is_sound, rows_of, Row};
use records::{Built, Head, Record, Refusal, Set};

/// A tree with more markings than this is not tried.
pub const MOST_MARKINGS: u64 = 30_000;

/// What a case was, for the tally.
#[derive(Default)]
pub struct Seen {
    /// The refusal's number, or 0.
    pub answer: u8,
    /// Where it is refused 1 to 4.
    pub position: Option<usize>,
    /// The rows compared with all markings; none where the tree has too many.
    pub rows: Option<usize>,
    pub records: usize,
    pub entries: usize,
    /// Where it was answered.
    pub met: Met,
}

pub struct StreamTrial {
    pub case: Case,
    /// By which it is shown: --stream, --text or --pair, the number, and what else finds it.
    pub label: String,
}

impl Trial for StreamTrial {
    fn call(&self) -> Call {
        self.case.call()
    }

    fn judge(&self, gave: Gave, tally: &mut Tally) {
        let expected = records::build(&self.case.input, &self.case.work, &self.case.table);
        let mut seen = Seen { answer: number_of(&expected), position: position_in(&expected), ..Seen::default() };
        seen.entries = self.call().entries();
        seen.records = expected.answer.map_or(0, |head| head.used as usize);
        seen.met = expected.answer.map_or(Met::default(), |head| Met::in_stream(&self.case.input, head.set != Set::Empty));
        let verdict = match gave {
            Gave::NoDriver => check_rows(&self.case.input, &expected, &expected.lent, &mut seen),
            Gave::Nothing => Err("the driver gave no answer".to_string()),
            Gave::Left(left) => self.check(left, &expected, &mut seen),
        };
        tally.stream(&self.case, &self.label, &seen, verdict);
    }
}

impl StreamTrial {
    /// Everything that the library left is what `records` says; and the rows of the library's own records are those of all markings.
    fn check(&self, left: &Left, expected: &Built, seen: &mut Seen) -> Verdict {
        left.is(&self.call(), &self.expected(expected))?;
        check_rows(&self.case.input, expected, left.lent[2].records(), seen)
    }

    /// An out parameter is written only with an answer, but the position only with refusals 1 to 4.
    fn expected(&self, after: &Built) -> Left {
        let lent = vec![
            Buffer::Bytes(self.case.input.clone()),
            Buffer::Numbers(after.work.clone()),
            Buffer::Records(after.lent.clone()),
            Buffer::Shorts(after.answer.map_or(self.case.head, |head| numbers_of(&head)).to_vec()),
            Buffer::Numbers(vec![position_in(after).map_or(self.case.position, |position| position as u64)]),
        ];
        Left { answer: number_of(after), lent }
    }
}

/// The refusal's number, or 0.
fn number_of(built: &Built) -> u8 {
    built.answer.err().map_or(0, |refusal| refusal.number)
}

fn position_in(built: &Built) -> Option<usize> {
    built.answer.err().and_then(|refusal| refusal.position)
}

/// `markings` gives the same refusals 1 to 4 at the same positions, and of a small tree the same rows. No record is at a pad, however
/// large the tree is.
fn check_rows(input: &[u8], expected: &Built, table: &[Record], seen: &mut Seen) -> Verdict {
    let said_by_stream = expected.answer.err().filter(|refusal| refusal.number <= 4);
    let stream = markings::read(input);
    same("refusal by markings and by records", stream.as_ref().err().map(refusal_of), said_by_stream)?;
    let (stream, head) = match (stream, expected.answer) {
        (Ok(stream), Ok(head)) => (stream, head),
        _ => return Ok(()),
    };
    same("nodes and arity", (stream.nodes(), stream.arity()), (head.nodes as usize, head.arity as usize))?;
    same("sound", is_sound(&head, table), true)?;
    pads::check_records(input, &table[..head.used as usize])?;
    check_bound(input, &head)?;
    if stream.markings() <= MOST_MARKINGS {
        seen.rows = Some(rows_by_markings(&stream, &head, table)?.len());
    }
    Ok(())
}

/// What `markings` says in the words of `records`.
pub fn refusal_of(refusal: &markings::Refusal) -> Refusal {
    Refusal::at(refusal.position, refusal.number)
}

/// The records made are at most 4 times 3 to the arity times rules times nodes, plus one less than the accepting states.
fn check_bound(input: &[u8], head: &Head) -> Verdict {
    let stream = records::stream::read(input).expect("an accepted stream");
    let accepting = stream.query.accepting.iter().filter(|&&accepting| accepting).count();
    let bound = 4 * 3_usize.pow(head.arity as u32) * stream.query.rules.len() * stream.tree.len() + accepting.saturating_sub(1);
    same("records within the bound", head.used as usize <= bound, true)
}

/// The set's listing; put in ascending order it is what all markings give: the same rows, and none twice.
pub fn rows_by_markings(stream: &Stream, head: &Head, table: &[Record]) -> Result<Vec<Row>, String> {
    let accepted = stream.accepted_rows();
    let rows = rows_of(head, table, accepted.len()).ok_or("more rows are listed than accepted")?;
    let mut ascending = rows.clone();
    ascending.sort();
    same("rows listed", ascending.len(), accepted.len())?;
    same_entries("row", &ascending, &accepted)?;
    Ok(rows)
}
