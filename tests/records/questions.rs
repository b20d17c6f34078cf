//! 'Questions on a set', on any head and table, with the refusals in the paper's order: 5, 11, 13, 7, 8, 9, 10, 6, 12.

use crate::set::{count_of, is_sound, lists_row, nodes_at, row_numbered, Head, Record, Set, BLANK, PRODUCT, SINGLE, UNION};
use crate::{refuse_unless, work_after, written, After};

/// A set that is asked: the head, the table, and the work lent for it.
#[derive(Clone, Copy)]
pub struct Asked<'a> {
    pub head: &'a Head,
    pub table: &'a [Record],
    pub work: &'a [u64],
}

impl Asked<'_> {
    /// Count: how many rows are listed.
    pub fn count(&self) -> After<u128, ()> {
        let answer = self.may_be_asked().map(|()| count_of(self.head, self.table));
        self.after(answer, ())
    }

    /// Row by number: the row stands in the output.
    pub fn row_by_number(&self, number: u128, output: &[u16]) -> After<(), Vec<u16>> {
        let row = self.row_refusals(number, output.len()).map(|()| row_numbered(self.head, self.table, number));
        self.after_output(row, output)
    }

    fn row_refusals(&self, number: u128, output: usize) -> Result<(), u8> {
        self.may_be_asked()?;
        refuse_unless(9, number < count_of(self.head, self.table))?;
        refuse_unless(10, output >= self.head.arity as usize)
    }

    /// Member: whether the row is listed.
    pub fn member(&self, row: &[u16]) -> After<bool, ()> {
        let answer = self.member_refusals(row).map(|()| lists_row(self.head, self.table, row));
        self.after(answer, ())
    }

    fn member_refusals(&self, row: &[u16]) -> Result<(), u8> {
        self.may_be_asked()?;
        refuse_unless(13, row.len() == self.head.arity as usize)?;
        let fits = |place: usize, node: u16| {
            if self.head.open_places >> place & 1 == 1 {
                node < self.head.nodes
            } else {
                node == BLANK
            }
        };
        refuse_unless(8, row.iter().enumerate().all(|(place, &node)| fits(place, node)))
    }

    /// Project a place: the marks stand in the output.
    pub fn project(&self, place: u64, output: &[u8]) -> After<(), Vec<u8>> {
        let marks = self.project_refusals(place, output.len()).map(|()| nodes_at(self.head, self.table, place as u16 - 1));
        self.after_output(marks, output)
    }

    fn project_refusals(&self, place: u64, output: usize) -> Result<(), u8> {
        self.may_be_asked()?;
        refuse_unless(7, self.is_open(place))?;
        refuse_unless(10, output >= self.head.nodes as usize)
    }

    /// Fix a place at a node: the new set's head, its records in the target.
    pub fn fix(&self, place: u64, node: u64, target: &[Record]) -> After<Head, Vec<Record>> {
        let refusals = self.fix_refusals(place, node, target.len());
        let fixed = refusals.and_then(|()| fixed_set(self.head, self.table, place as u16 - 1, node as u16));
        match fixed {
            Ok((head, records)) => self.after(Ok(head), written(&records, target)),
            Err(number) => self.after(Err(number), target.to_vec()),
        }
    }

    /// All but 12, which is met while the records are made.
    fn fix_refusals(&self, place: u64, node: u64, target: usize) -> Result<(), u8> {
        self.may_be_asked()?;
        refuse_unless(7, self.is_open(place))?;
        refuse_unless(8, node < self.head.nodes as u64)?;
        refuse_unless(6, target >= self.head.used as usize)
    }

    /// Work is compared with the head's own number, before the head is known to be sound.
    fn may_be_asked(&self) -> Result<(), u8> {
        refuse_unless(5, self.work.len() >= self.head.used as usize)?;
        refuse_unless(11, is_sound(self.head, self.table))
    }

    /// The place is 1 to the arity, and open.
    fn is_open(&self, place: u64) -> bool {
        1 <= place && place <= self.head.arity as u64 && self.head.open_places >> (place - 1) & 1 == 1
    }

    fn after<A, L>(&self, answer: Result<A, u8>, lent: L) -> After<A, L> {
        After { work: work_after(&answer, self.head.used as usize, self.work), answer, lent }
    }

    /// The first entries written, the rest unchanged; a refusal changes nothing.
    fn after_output<T: Clone>(&self, first: Result<Vec<T>, u8>, output: &[T]) -> After<(), Vec<T>> {
        match first {
            Ok(first) => self.after(Ok(()), written(&first, output)),
            Err(number) => self.after(Err(number), output.to_vec()),
        }
    }
}

/// The place, from 0, fixed at the node; refused 12 where both operands of a used union become unit.
fn fixed_set(head: &Head, table: &[Record], place: u16, node: u16) -> Result<(Head, Vec<Record>), u8> {
    let mut fixing = Fixing { bit: 1 << place, node, images: Vec::new(), records: Vec::new() };
    for record in &table[..head.used as usize] {
        let image = fixing.image(record)?;
        fixing.images.push(image);
    }
    let set = match head.set {
        Set::At(root) => fixing.images[root as usize],
        other => other,
    };
    Ok((Head { open_places: head.open_places & !fixing.bit, used: fixing.records.len() as u16, set, ..*head }, fixing.records))
}

struct Fixing {
    /// The place as a flag.
    bit: u16,
    node: u16,
    /// The image of each old record so far.
    images: Vec<Set>,
    records: Vec<Record>,
}

impl Fixing {
    fn image(&mut self, record: &Record) -> Result<Set, u8> {
        match record.kind {
            SINGLE => Ok(self.image_of_single(record)),
            UNION => self.image_of_union(record),
            _ => Ok(self.image_of_product(record)),
        }
    }

    /// Without the place it is copied; at another node it becomes empty; at this node it loses the place.
    fn image_of_single(&mut self, record: &Record) -> Set {
        if record.flag & self.bit == 0 {
            self.new_record(*record)
        } else if record.node != self.node {
            Set::Empty
        } else if record.flag == self.bit {
            Set::Unit
        } else {
            self.new_record(Record::single(record.node, record.flag & !self.bit))
        }
    }

    fn image_of_union(&mut self, record: &Record) -> Result<Set, u8> {
        match self.images_of_operands(record) {
            (Set::Unit, Set::Unit) => Err(12),
            (Set::Empty, other) | (other, Set::Empty) => Ok(other),
            (Set::At(left), Set::At(right)) => Ok(self.new_record(self.anew(record, UNION, left, right))),
            _ => unreachable!("a sound union's operands have one flag, so with unit stands unit or empty"),
        }
    }

    /// With empty it is empty, with unit it is the other factor.
    fn image_of_product(&mut self, record: &Record) -> Set {
        match self.images_of_operands(record) {
            (Set::Empty, _) | (_, Set::Empty) => Set::Empty,
            (Set::Unit, other) | (other, Set::Unit) => other,
            (Set::At(left), Set::At(right)) => self.new_record(self.anew(record, PRODUCT, left, right)),
        }
    }

    fn images_of_operands(&self, record: &Record) -> (Set, Set) {
        let (left, right) = record.operands();
        (self.images[left], self.images[right])
    }

    /// At the old record's node, without the place.
    fn anew(&self, record: &Record, kind: u16, left: u16, right: u16) -> Record {
        Record { kind, node: record.node, left, right, flag: record.flag & !self.bit }
    }

    fn new_record(&mut self, record: Record) -> Set {
        self.records.push(record);
        Set::At((self.records.len() - 1) as u16)
    }
}
