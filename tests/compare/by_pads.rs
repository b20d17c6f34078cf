//! Judges an answer by the pads of the tree that a set was built from: none of them stands in a row, whoever answers.

use crate::asking::{Asking, Question};
use crate::by_rows::OWN;
use crate::call::{Buffer, Left};
use crate::sets::SET;
use crate::verdict::{same, Verdict};

/// As a head's set has it.
const EMPTY: u16 = 0;

/// Whether the answer could tell a set that has pads in its rows: it is a row or a projection, a row that names a pad is asked for, or
/// a place fixed at one. A refusal says nothing of pads.
pub fn concerns(asking: &Asking, answer: u8, pads: &[u16]) -> bool {
    let asked = match &asking.question {
        Question::Count { .. } => false,
        Question::Row { .. } | Question::Project { .. } => !pads.is_empty(),
        Question::Member { row, .. } => names_one(row, pads),
        Question::Fix { node, .. } => pads.contains(node),
    };
    asked && answer == 0
}

pub fn check(asking: &Asking, left: &Left, pads: &[u16]) -> Verdict {
    if !concerns(asking, left.answer, pads) {
        return Ok(());
    }
    let own = &left.lent[OWN..];
    match &asking.question {
        Question::Count { .. } => Ok(()),
        Question::Row { .. } => same("a pad in the row", names_one(row_in(asking, own), pads), false),
        Question::Member { .. } => same("a row that names a pad listed", own[1].bytes(), &[0]),
        Question::Project { .. } => same("a pad marked", pads.iter().find(|&&pad| own[0].bytes()[pad as usize] != 0), None),
        Question::Fix { .. } => same("the set fixed at a pad", own[1].shorts()[SET], EMPTY),
    }
}

/// What stands behind the row is not of it.
fn row_in<'a>(asking: &Asking, own: &'a [Buffer]) -> &'a [u16] {
    &own[0].shorts()[..asking.set.head().arity as usize]
}

fn names_one(row: &[u16], pads: &[u16]) -> bool {
    row.iter().any(|node| pads.contains(node))
}
