//! One question on a set, with all that is lent to it: the call, and what `records` says that it leaves.

use crate::call::{Buffer, Call, Function, Left};
use crate::garbage;
use crate::random::Random;
use crate::sets::{numbers_of, WholeSet, ARITY, NODES, USED};
use records::questions::Asked;
use records::{After, Record};

/// With the numbers and buffers that are the question's own, as they stand before the call.
#[derive(Clone, Debug)]
pub enum Question {
    Count { rows: u64 },
    Row { number: u64, row: Vec<u16> },
    Member { row: Vec<u16>, listed: u8 },
    Project { place: u16, marks: Vec<u8> },
    Fix { place: u16, node: u16, target: Vec<Record>, fixed: [u16; 6] },
}

impl Question {
    /// In the order of the paper, from 0.
    pub fn number(&self) -> usize {
        match self {
            Question::Count { .. } => 0,
            Question::Row { .. } => 1,
            Question::Member { .. } => 2,
            Question::Project { .. } => 3,
            Question::Fix { .. } => 4,
        }
    }

    /// With its numbers, and how long its buffer is.
    pub fn name(&self) -> String {
        match self {
            Question::Count { .. } => "count".to_string(),
            Question::Row { number, row } => format!("row {number} into {} entries", row.len()),
            Question::Member { row, .. } => format!("member {row:?}"),
            Question::Project { place, marks } => format!("project place {place} into {} entries", marks.len()),
            Question::Fix { place, node, target, .. } => format!("fix place {place} at {node} into {} entries", target.len()),
        }
    }
}

#[derive(Clone, Debug)]
pub struct Asking {
    pub set: WholeSet,
    pub work: Vec<u64>,
    pub question: Question,
}

/// Not longer than so, for the buffers of a damaged head whose numbers are large.
const LONGEST_ROW: usize = 9;
const LONGEST_MARKS: usize = 5_000;

/// Each with as much room as it asks for, or a little more.
impl WholeSet {
    pub fn count(&self, random: &mut Random) -> Asking {
        let rows = random.any();
        self.ask(random, Question::Count { rows })
    }

    pub fn row(&self, random: &mut Random, number: u64) -> Asking {
        let length = LONGEST_ROW.min(self.head[ARITY] as usize) + random.below(3);
        let row = garbage::shorts(random, length);
        self.ask(random, Question::Row { number, row })
    }

    pub fn member(&self, random: &mut Random, row: Vec<u16>) -> Asking {
        let listed = random.byte();
        self.ask(random, Question::Member { row, listed })
    }

    pub fn project(&self, random: &mut Random, place: u16) -> Asking {
        let length = LONGEST_MARKS.min(self.head[NODES] as usize) + random.below(3);
        let marks = garbage::bytes(random, length);
        self.ask(random, Question::Project { place, marks })
    }

    pub fn fix(&self, random: &mut Random, place: u16, node: u16) -> Asking {
        let length = self.likely_used() + random.below(3);
        let (target, fixed) = (garbage::records(random, length), garbage::head(random));
        self.ask(random, Question::Fix { place, node, target, fixed })
    }

    fn ask(&self, random: &mut Random, question: Question) -> Asking {
        // a head that claims far more records than there are mostly gets too little work
        let used = if random.chance(10) { self.head[USED] as usize } else { self.likely_used() };
        let length = used + random.below(3);
        let work = if random.chance(75) { garbage::numbers(random, length) } else { self.tempting_work(random, length) };
        Asking { set: self.clone(), work, question }
    }

    /// What could be taken for a count, or for a count and a flag, that was put there before.
    fn tempting_work(&self, random: &mut Random, length: usize) -> Vec<u64> {
        let (rows, with_flag) = (random.between(1, 3) as u64, random.chance(70));
        let flag = |number: usize| self.table.get(number).map_or(0, |record| record.flag as u64);
        (0..length).map(|number| if with_flag { 16 * rows + flag(number) } else { rows }).collect()
    }

    fn likely_used(&self) -> usize {
        (self.table.len() + 20).min(self.head[USED] as usize)
    }
}

impl Asking {
    pub fn call(&self) -> Call {
        let mut lent = vec![
            ("head number", Buffer::Shorts(self.set.head.to_vec())),
            ("table entry", Buffer::Records(self.set.table.clone())),
            ("work entry", Buffer::Numbers(self.work.clone())),
        ];
        let (function, numbers, own) = match &self.question {
            Question::Count { rows } => (Function::Count, [0, 0], vec![("rows", Buffer::Numbers(vec![*rows]))]),
            Question::Row { number, row } => (Function::Row, [*number, 0], vec![("entry of the row", Buffer::Shorts(row.clone()))]),
            Question::Member { row, listed } => {
                let own = vec![("entry of the row", Buffer::Shorts(row.clone())), ("listed", Buffer::Bytes(vec![*listed]))];
                (Function::Member, [0, 0], own)
            }
            Question::Project { place, marks } => {
                (Function::Project, [*place as u64, 0], vec![("mark", Buffer::Bytes(marks.clone()))])
            }
            Question::Fix { place, node, target, fixed } => {
                let own = vec![("target entry", Buffer::Records(target.clone())), ("fixed number", Buffer::Shorts(fixed.to_vec()))];
                (Function::Fix, [*place as u64, *node as u64], own)
            }
        };
        lent.extend(own);
        Call { function, numbers, lent }
    }

    /// By `records`. An out parameter is written only with an answer.
    pub fn expected(&self) -> Left {
        let head = self.set.head();
        let asked = Asked { head: &head, table: &self.set.table, work: &self.work };
        match &self.question {
            Question::Count { rows } => {
                let after = asked.count();
                let rows = after.answer.map_or(*rows, |count| count as u64);
                self.left(after, vec![Buffer::Numbers(vec![rows])])
            }
            Question::Row { number, row } => {
                let after = asked.row_by_number(*number as u128, row);
                let row = Buffer::Shorts(after.lent.clone());
                self.left(after, vec![row])
            }
            Question::Member { row, listed } => {
                let after = asked.member(row);
                let listed = after.answer.map_or(*listed, u8::from);
                self.left(after, vec![Buffer::Shorts(row.clone()), Buffer::Bytes(vec![listed])])
            }
            Question::Project { place, marks } => {
                let after = asked.project(*place as u64, marks);
                let marks = Buffer::Bytes(after.lent.clone());
                self.left(after, vec![marks])
            }
            Question::Fix { place, node, target, fixed } => {
                let after = asked.fix(*place as u64, *node as u64, target);
                let fixed = after.answer.map_or(*fixed, |head| numbers_of(&head));
                let target = Buffer::Records(after.lent.clone());
                self.left(after, vec![target, Buffer::Shorts(fixed.to_vec())])
            }
        }
    }

    /// Head and table are left as they are.
    fn left<A, L>(&self, after: After<A, L>, own: Vec<Buffer>) -> Left {
        let mut lent =
            vec![Buffer::Shorts(self.set.head.to_vec()), Buffer::Records(self.set.table.clone()), Buffer::Numbers(after.work)];
        lent.extend(own);
        Left { answer: after.answer.err().unwrap_or(0), lent }
    }
}
