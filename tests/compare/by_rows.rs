//! Judges an answer by the plain list of a set's rows: what was left, whoever left it, says the same as the list.

use crate::asking::{Asking, Question};
use crate::call::Left;
use crate::sets::{narrowed, WholeSet, USED};
use crate::verdict::{same, Verdict};
use records::set::{is_sound, Row, UNION};
use records::Record;

/// Behind the head, the table and the work stand the question's own buffers.
pub const OWN: usize = 3;

/// `rows` are those that the asked set lists. A refusal but 9 and 12 is not about the rows.
pub fn check(asking: &Asking, left: &Left, rows: &[Row]) -> Verdict {
    let own = &left.lent[OWN..];
    match (&asking.question, left.answer) {
        (Question::Count { .. }, 0) => same("count and the rows", own[0].numbers(), &[rows.len() as u64]),
        (Question::Row { number, .. }, 0) => {
            let row = &own[0].shorts()[..asking.set.head().arity as usize];
            same("row and the list's", Some(row), rows.get(*number as usize).map(Vec::as_slice))
        }
        (Question::Row { number, .. }, 9) => same("a row behind the last", *number >= rows.len() as u64, true),
        (Question::Member { row, .. }, 0) => same("member and the rows", own[1].bytes(), &[rows.contains(row) as u8]),
        (Question::Project { place, .. }, 0) => {
            let marks = &own[0].bytes()[..asking.set.head().nodes as usize];
            same("marks and the rows", marks, &marks_of(rows, *place, marks.len()))
        }
        (Question::Fix { place, node, .. }, 0) => {
            let fixed = WholeSet { head: own[1].shorts().try_into().unwrap(), table: own[0].records().to_vec() };
            check_fixed(asking, &fixed, rows, *place, *node)
        }
        (Question::Fix { place, node, .. }, 12) => same("refused 12", unites_units(&asking.set, *place, *node), true),
        _ => Ok(()),
    }
}

/// The same for a set of which only the number of rows is known.
pub fn check_count(left: &Left, rows: u64) -> Verdict {
    same("count and rows.txt", left.lent[OWN].numbers(), &[rows])
}

/// A node is marked exactly if it stands at the place in some row.
fn marks_of(rows: &[Row], place: u16, nodes: usize) -> Vec<u8> {
    let mut marks = vec![0; nodes];
    rows.iter().for_each(|row| marks[row[place as usize - 1] as usize] = 1);
    marks
}

/// The fixed set is sound and lists the rows that have the node there, in the old order; it is not refused 12.
fn check_fixed(asking: &Asking, fixed: &WholeSet, rows: &[Row], place: u16, node: u16) -> Verdict {
    same("fixed set sound", is_sound(&fixed.head(), &fixed.table), true)?;
    same("rows of the fixed set", fixed.rows().as_deref(), Some(&narrowed(rows, place, node)))?;
    same("refused 12", false, unites_units(&asking.set, place, node))
}

/// Both operands of a used union become unit: it fills this one place, and both list the node.
fn unites_units(set: &WholeSet, place: u16, node: u16) -> bool {
    let used = &set.table[..set.head[USED] as usize];
    let lists_node = |record: u16| singles_under(used, record).iter().any(|single| single.node == node);
    let fills_place = |record: &&Record| record.kind == UNION && record.flag == 1 << (place - 1);
    used.iter().filter(fills_place).any(|union| lists_node(union.left) && lists_node(union.right))
}

/// Of a record that fills one place, so that no product stands under it.
fn singles_under(table: &[Record], record: u16) -> Vec<Record> {
    let (mut seen, mut waiting, mut singles) = (vec![false; table.len()], vec![record], Vec::new());
    while let Some(number) = waiting.pop() {
        let record = table[number as usize];
        if std::mem::replace(&mut seen[number as usize], true) {
            continue;
        }
        match record.kind {
            UNION => waiting.extend([record.left, record.right]),
            _ => singles.push(record),
        }
    }
    singles
}
