//! A table made record by record, with the rows that each record lists counted along, however many.

use crate::sets::WholeSet;
use records::set::{PRODUCT, UNION};
use records::Record;

#[derive(Clone, Default)]
pub struct Making {
    pub table: Vec<Record>,
    pub counts: Vec<u128>,
}

impl Making {
    /// Of records at any node; each gives its number.
    pub fn single(&mut self, node: u16, flag: u16) -> u16 {
        self.add(Record::single(node, flag), 1)
    }

    pub fn union(&mut self, left: u16, right: u16) -> u16 {
        let (a, b) = (left as usize, right as usize);
        let record = Record { kind: UNION, node: 0, left, right, flag: self.table[a].flag };
        self.add(record, self.counts[a] + self.counts[b])
    }

    pub fn product(&mut self, left: u16, right: u16) -> u16 {
        let (a, b) = (left as usize, right as usize);
        let flag = self.table[a].flag | self.table[b].flag;
        // no more than an unsound record need be, so that the next product still fits
        self.add(Record { kind: PRODUCT, node: 0, left, right, flag }, (self.counts[a] * self.counts[b]).min(1 << 60))
    }

    fn add(&mut self, record: Record, count: u128) -> u16 {
        self.table.push(record);
        self.counts.push(count);
        (self.table.len() - 1) as u16
    }

    /// A record that lists `count` rows, at least one, all of them of one node: doubled, and one more where the binary digit is 1.
    pub fn counting(&mut self, count: u128, node: u16, flag: u16) -> u16 {
        let one = self.single(node, flag);
        let mut record = one;
        for digit in (0..u128::BITS - 1 - count.leading_zeros()).rev() {
            record = self.union(record, record);
            if count >> digit & 1 == 1 {
                record = self.union(record, one);
            }
        }
        assert_eq!(self.counts[record as usize], count, "rows counted");
        record
    }

    /// All records used, and the root's places open.
    pub fn set(&self, nodes: u16, arity: u16, root: u16) -> WholeSet {
        let open_places = self.table[root as usize].flag;
        WholeSet { head: [nodes, arity, open_places, self.table.len() as u16, 2, root], table: self.table.clone() }
    }
}
