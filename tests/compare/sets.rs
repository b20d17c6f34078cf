//! Sets to be asked, as C has them: built from a stream, or made by hand, sound, with records in any order, rows listed twice and
//! places fixed.

use crate::check::{rows_by_markings, MOST_MARKINGS};
use crate::garbage;
use crate::pads::{pads_of, Pads};
use crate::random::Random;
use crate::streams::{any_places_seen, any_valid, Stream};
use records::set::{is_sound, rows_of, Row, PRODUCT, UNION};
use records::{Head, Record, Set, BLANK};
use std::rc::Rc;

/// What stands where in a head.
pub const NODES: usize = 0;
pub const ARITY: usize = 1;
pub const OPEN_PLACES: usize = 2;
pub const USED: usize = 3;
pub const SET: usize = 4;
pub const RECORD: usize = 5;

/// A larger listing is not held to a plain list.
const MOST_ROWS: usize = 1_500;

#[derive(Clone, Debug)]
pub struct WholeSet {
    pub head: [u16; 6],
    pub table: Vec<Record>,
}

/// The rows that a set lists, where it is sound and they are few.
pub type Rows = Option<Rc<Vec<Row>>>;

/// A head as C has it.
pub fn numbers_of(head: &Head) -> [u16; 6] {
    let (set, record) = match head.set {
        Set::Empty => (0, 0),
        Set::Unit => (1, 0),
        Set::At(record) => (2, record),
    };
    [head.nodes, head.arity, head.open_places, head.used, set, record]
}

impl WholeSet {
    /// A set that is none of the three has a record that no sound set has.
    pub fn head(&self) -> Head {
        let [nodes, arity, open_places, used, set, record] = self.head;
        let set = match set {
            0 => Set::Empty,
            1 => Set::Unit,
            2 => Set::At(record),
            _ => Set::At(u16::MAX),
        };
        Head { nodes, arity, open_places, used, set }
    }

    pub fn rows(&self) -> Rows {
        if !is_sound(&self.head(), &self.table) {
            return None;
        }
        rows_of(&self.head(), &self.table, MOST_ROWS).map(Rc::new)
    }

    /// From 1, as the calls have them.
    pub fn open_places(&self) -> Vec<u16> {
        (1..=4).filter(|place| self.head[OPEN_PLACES] >> (place - 1) & 1 == 1).collect()
    }
}

/// With its rows, which all markings give too, and the pads of its tree.
pub struct BuiltSet {
    pub set: WholeSet,
    pub rows: Rows,
    pub pads: Pads,
}

pub fn any_built(random: &mut Random) -> Stream {
    if random.chance(15) {
        any_places_seen(random)
    } else {
        any_valid(random)
    }
}

/// Or what the rows by markings differ in.
pub fn built(random: &mut Random, stream: &Stream) -> Result<BuiltSet, String> {
    let input = stream.bytes();
    let needs = records::needs(&input).map_err(|refusal| format!("{refusal:?}"))?;
    let made = needs.records.ok_or("more than 60,000 records")?;
    let length = made + random.below(4);
    let table = garbage::records(random, length);
    let built = records::build(&input, &vec![0; needs.work], &table);
    let head = built.answer.map_err(|refusal| format!("{refusal:?}"))?;
    let set = WholeSet { head: numbers_of(&head), table: built.lent };
    let stream = markings::read(&input).map_err(|refusal| format!("{refusal:?}"))?;
    let rows = if stream.markings() <= MOST_MARKINGS { Some(rows_by_markings(&stream, &head, &set.table)?) } else { None };
    Ok(BuiltSet { set, rows: rows.map(Rc::new), pads: pads_of(&input) })
}

pub fn by_hand(random: &mut Random) -> WholeSet {
    let (nodes, arity) = (random.between(1, 5) as u16, random.between(1, 4) as u16);
    let mut table: Vec<Record> = Vec::new();
    for _ in 0..random.between(1, 16) {
        let record = any_record(random, nodes, arity, &table);
        table.push(record);
    }
    // the root mostly a late record, so that much stands under it
    let root = table.len() - 1 - random.below(table.len().min(3));
    let used = table.len() as u16;
    let head = match random.below(20) {
        0 => [nodes, arity, table[root].flag, used, 0, random.below(3) as u16],
        1 => [nodes, arity, 0, used, 1, random.below(3) as u16],
        _ => [nodes, arity, table[root].flag, used, 2, root as u16],
    };
    let unused = random.below(3);
    table.extend(garbage::records(random, unused));
    WholeSet { head, table }
}

/// A union or a product of earlier records if their flags allow it, else a single.
fn any_record(random: &mut Random, nodes: u16, arity: u16, before: &[Record]) -> Record {
    let node = random.below(nodes as usize) as u16;
    if !before.is_empty() && random.chance(80) {
        let (left, right) = (random.below(before.len()) as u16, random.below(before.len()) as u16);
        let (a, b) = (before[left as usize].flag, before[right as usize].flag);
        if a == b {
            return Record { kind: UNION, node, left, right, flag: a };
        }
        if a & b == 0 {
            return Record { kind: PRODUCT, node, left, right, flag: a | b };
        }
    }
    Record::single(node, random.between(1, (1 << arity) - 1) as u16)
}

/// The rows that have the node at the place, with the place blank.
pub fn narrowed(rows: &[Row], place: u16, node: u16) -> Vec<Row> {
    let at = place as usize - 1;
    let mut narrowed: Vec<Row> = rows.iter().filter(|row| row[at] == node).cloned().collect();
    narrowed.iter_mut().for_each(|row| row[at] = BLANK);
    narrowed
}
