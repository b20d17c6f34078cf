//! The benchmark's ordinary Rust program: the same build as the library's, records and slots in Vec, and the questions answered plainly,
//! with no proof. A build checks that no rule is said twice, or not even that. It takes the stream's bytes, as the library does, so that
//! reading is timed on both sides.

mod reading;

use reading::{read, BranchRule, LeafRule, Query, Symbol};
use std::collections::HashSet;
use tarnsatchel::{Head, Record, Set, BLANK};

pub const SINGLE: u16 = 1;
pub const UNION: u16 = 2;
pub const PRODUCT: u16 = 3;

/// A set that owns its records.
#[derive(Clone, Debug, PartialEq)]
pub struct Built {
    pub head: Head,
    pub records: Vec<Record>,
}

struct Building<'a> {
    query: &'a Query,
    node: u16,
    records: Vec<Record>,
}

impl Building<'_> {
    fn new_record(&mut self, kind: u16, left: u16, right: u16, flag: u16) -> Set {
        self.records.push(Record { kind, node: self.node, left, right, flag });
        Set::Record((self.records.len() - 1) as u16)
    }

    fn single(&mut self, flag: u16) -> Set {
        if flag == 0 {
            Set::Unit
        } else {
            self.new_record(SINGLE, 0, 0, flag)
        }
    }

    fn product(&mut self, flag: u16, left: Set, right: Set) -> Set {
        match (left, right) {
            (Set::Record(left), Set::Record(right)) => self.new_record(PRODUCT, left, right, flag),
            (Set::Unit, other) => other,
            (other, _) => other,
        }
    }

    fn union(&mut self, flag: u16, left: Set, right: Set) -> Set {
        match (left, right) {
            (Set::Record(left), Set::Record(right)) => self.new_record(UNION, left, right, flag),
            (Set::Empty, other) => other,
            (other, _) => other,
        }
    }

    fn slot(&self, state: usize, flag: u16) -> usize {
        (state << self.query.arity) + flag as usize
    }

    fn empty_slots(&self) -> Vec<Set> {
        vec![Set::Empty; self.query.states << self.query.arity]
    }

    fn leaf(&mut self, label: u8) -> Vec<Set> {
        let (query, mut slots) = (self.query, self.empty_slots());
        for &LeafRule { flag, state } in &query.leaf_rules[label as usize] {
            let at = self.slot(state, flag);
            slots[at] = self.single(flag);
        }
        slots
    }

    fn branch(&mut self, label: u8, lefts: &[Set], rights: &[Set]) -> Vec<Set> {
        let (query, mut slots) = (self.query, self.empty_slots());
        for &BranchRule { flag, left, right, state } in &query.branch_rules[label as usize] {
            let (lefts, rights) = (&lefts[self.slot(left, 0)..], &rights[self.slot(right, 0)..]);
            let to = self.slot(state, 0);
            self.splits(flag, lefts, rights, &mut slots[to..]);
        }
        slots
    }

    fn splits(&mut self, own: u16, lefts: &[Set], rights: &[Set], slots: &mut [Set]) {
        let flags = 1 << self.query.arity;
        for b1 in 0..flags {
            let left = lefts[b1 as usize];
            if own & b1 != 0 || left == Set::Empty {
                continue;
            }
            for b2 in 0..flags {
                let right = rights[b2 as usize];
                if (own | b1) & b2 != 0 || right == Set::Empty {
                    continue;
                }
                let all = own | b1 | b2;
                let single = self.single(own);
                let inner = self.product(own | b1, single, left);
                let outer = self.product(all, inner, right);
                slots[all as usize] = self.union(all, slots[all as usize], outer);
            }
        }
    }

    fn tree(&mut self, tree: &[Symbol]) -> Set {
        let mut unjoined: Vec<Vec<Set>> = Vec::new();
        for (node, &symbol) in tree.iter().enumerate() {
            self.node = node as u16;
            let slots = match symbol {
                Symbol::Leaf(label) => self.leaf(label),
                Symbol::Branch(label) => {
                    let right = unjoined.pop().unwrap();
                    let left = unjoined.pop().unwrap();
                    self.branch(label, &left, &right)
                }
            };
            unjoined.push(slots);
        }
        let (all, mut answer) = ((1 << self.query.arity) - 1, Set::Empty);
        for i in 0..self.query.accepting.len() {
            let at = self.slot(self.query.accepting[i], all);
            answer = self.union(all, answer, unjoined[0][at]);
        }
        answer
    }
}

/// None where a rule is said twice.
#[inline(never)]
pub fn build(input: &[u8]) -> Option<Built> {
    let mut said = HashSet::new();
    let (tree, query) = read(input, |left_side| said.insert(left_side))?;
    Some(build_of(&tree, &query))
}

/// Of a stream that is known to say no rule twice.
#[inline(never)]
pub fn build_unchecked(input: &[u8]) -> Built {
    let (tree, query) = read(input, |_| true).expect("every rule is taken for a new one");
    build_of(&tree, &query)
}

fn build_of(tree: &[Symbol], query: &Query) -> Built {
    let (nodes, arity) = (tree.len() as u16, query.arity as u16);
    let mut building = Building { query, node: 0, records: Vec::new() };
    let set = building.tree(tree);
    let records = building.records;
    Built { head: Head { nodes, arity, open_places: (1 << arity) - 1, used: records.len() as u16, set }, records }
}

#[inline(never)]
pub fn count(built: &Built) -> u64 {
    match built.head.set {
        Set::Empty => 0,
        Set::Unit => 1,
        Set::Record(root) => counts(&built.records)[root as usize],
    }
}

fn counts(records: &[Record]) -> Vec<u64> {
    let mut counts: Vec<u64> = Vec::with_capacity(records.len());
    for record in records {
        let (left, right) = (record.left as usize, record.right as usize);
        counts.push(match record.kind {
            SINGLE => 1,
            UNION => counts[left] + counts[right],
            _ => counts[left] * counts[right],
        });
    }
    counts
}

#[inline(never)]
pub fn row(built: &Built, number: u64) -> Vec<u16> {
    let mut row = vec![BLANK; built.head.arity as usize];
    if let Set::Record(root) = built.head.set {
        descend(&built.records, &counts(&built.records), root, number, &mut row);
    }
    row
}

/// The row of a record by its number. Products nest at most three deep.
pub fn descend(records: &[Record], counts: &[u64], mut at: u16, mut number: u64, row: &mut [u16]) {
    while records[at as usize].kind == UNION {
        let record = records[at as usize];
        let lefts = counts[record.left as usize];
        if number < lefts {
            at = record.left;
        } else {
            number -= lefts;
            at = record.right;
        }
    }
    let record = records[at as usize];
    if record.kind == PRODUCT {
        let rights = counts[record.right as usize];
        descend(records, counts, record.left, number / rights, row);
        descend(records, counts, record.right, number % rights, row);
        return;
    }
    for (place, node) in row.iter_mut().enumerate() {
        if record.flag >> place & 1 == 1 {
            *node = record.node;
        }
    }
}

#[inline(never)]
pub fn member(built: &Built, row: &[u16]) -> bool {
    let root = match built.head.set {
        Set::Empty => return false,
        Set::Unit => return true,
        Set::Record(root) => root,
    };
    let mut listed: Vec<bool> = Vec::with_capacity(built.records.len());
    for record in &built.records {
        let (left, right) = (record.left as usize, record.right as usize);
        listed.push(match record.kind {
            SINGLE => row.iter().enumerate().all(|(place, &node)| record.flag >> place & 1 == 0 || node == record.node),
            UNION => listed[left] || listed[right],
            _ => listed[left] && listed[right],
        });
    }
    listed[root as usize]
}

#[inline(never)]
pub fn project(built: &Built, place: u16) -> Vec<u8> {
    let mut marks = vec![0; built.head.nodes as usize];
    let mut under_root = vec![false; built.records.len()];
    if let Set::Record(root) = built.head.set {
        under_root[root as usize] = true;
    }
    for (number, record) in built.records.iter().enumerate().rev() {
        if !under_root[number] {
            continue;
        }
        if record.kind != SINGLE {
            under_root[record.left as usize] = true;
            under_root[record.right as usize] = true;
        } else if record.flag >> (place - 1) & 1 == 1 {
            marks[record.node as usize] = 1;
        }
    }
    marks
}

#[inline(never)]
pub fn fix(built: &Built, place: u16, node: u16) -> Built {
    let bit = 1 << (place - 1);
    let mut images: Vec<Set> = Vec::with_capacity(built.records.len());
    let mut records: Vec<Record> = Vec::new();
    for old in &built.records {
        let image = if old.kind == SINGLE {
            fixed_single(&mut records, old, bit, node)
        } else {
            match (old.kind, images[old.left as usize], images[old.right as usize]) {
                (_, Set::Record(left), Set::Record(right)) => {
                    new_record(&mut records, Record { left, right, flag: old.flag & !bit, ..*old })
                }
                (UNION, Set::Empty, other) | (UNION, other, _) => other,
                (_, Set::Empty, _) | (_, _, Set::Empty) => Set::Empty,
                (_, Set::Unit, other) | (_, other, _) => other,
            }
        };
        images.push(image);
    }
    let set = match built.head.set {
        Set::Record(root) => images[root as usize],
        other => other,
    };
    Built { head: Head { open_places: built.head.open_places & !bit, used: records.len() as u16, set, ..built.head }, records }
}

fn fixed_single(records: &mut Vec<Record>, old: &Record, bit: u16, node: u16) -> Set {
    if old.flag & bit != 0 && old.node != node {
        Set::Empty
    } else if old.flag == bit {
        Set::Unit
    } else {
        new_record(records, Record { flag: old.flag & !bit, ..*old })
    }
}

fn new_record(records: &mut Vec<Record>, record: Record) -> Set {
    records.push(record);
    Set::Record((records.len() - 1) as u16)
}
