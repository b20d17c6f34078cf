//! 'Building', in the paper's order, with the slots and the records in plain vectors, and with the leaf rules that request 2026-02 takes
//! out of it; refusals 5 and 6.

use crate::set::{Head, Record, Set, MOST_RECORDS, PRODUCT, UNION};
use crate::stream::{read, Left, Query, Stream, Symbol};
use crate::{work_after, written, After, Refusal};

/// A leaf of this label is a pad.
const PAD: u8 = 0;

/// What a build of an accepted stream asks for.
#[derive(Clone, Copy, Debug, PartialEq)]
pub struct Needs {
    pub work: usize,
    /// None where it would make more than 60,000.
    pub records: Option<usize>,
}

/// A build: its answer, and work and table afterwards.
pub type Built = After<Head, Vec<Record>, Refusal>;

pub fn build(input: &[u8], work: &[u64], table: &[Record]) -> Built {
    let stream = match read(input) {
        Ok(stream) => stream,
        Err(refusal) => return unchanged(refusal, work, table),
    };
    let stated = stated_work(&stream);
    if work.len() < stated {
        return unchanged(Refusal::nowhere(5), work, table);
    }
    let made = make(&stream, MOST_RECORDS.min(table.len()));
    let lent = match &made {
        Ok((_, records)) => written(records, table),
        Err(_) => vec![Record::default(); table.len()],
    };
    let work = work_after(&made, stated, work);
    After { answer: made.map(|(head, _)| head).map_err(Refusal::nowhere), work, lent }
}

/// Refusals 1 to 5 change nothing.
fn unchanged(refusal: Refusal, work: &[u64], table: &[Record]) -> Built {
    After { answer: Err(refusal), work: work.to_vec(), lent: table.to_vec() }
}

pub fn needs(input: &[u8]) -> Result<Needs, Refusal> {
    let stream = read(input)?;
    let records = make(&stream, MOST_RECORDS).ok().map(|(_, records)| records.len());
    Ok(Needs { work: stated_work(&stream), records })
}

fn stated_work(stream: &Stream) -> usize {
    (1 + stream.most_unjoined) * stream.query.states * (1 << stream.query.arity)
}

/// The head and the records, or refusal 6 where there are more than `most`.
fn make(stream: &Stream, most: usize) -> Result<(Head, Vec<Record>), u8> {
    let mut building = Building { query: &stream.query, node: 0, most, records: Vec::new() };
    let set = building.tree(&stream.tree)?;
    let head = Head {
        nodes: stream.tree.len() as u16,
        arity: stream.query.arity as u16,
        open_places: (1 << stream.query.arity) - 1,
        used: building.records.len() as u16,
        set,
    };
    Ok((head, building.records))
}

/// The sets of one subtree, one for every state and flag.
struct Slots {
    sets: Vec<Set>,
    flags: usize,
}

impl Slots {
    fn empty(query: &Query) -> Slots {
        let flags = 1 << query.arity;
        Slots { sets: vec![Set::Empty; query.states * flags], flags }
    }

    fn get(&self, state: u8, flag: u16) -> Set {
        self.sets[state as usize * self.flags + flag as usize]
    }

    fn put(&mut self, state: u8, flag: u16, set: Set) {
        self.sets[state as usize * self.flags + flag as usize] = set;
    }
}

/// One split of a branch: its own flag and its children's, which share no bit.
#[derive(Clone, Copy)]
struct Split {
    own: u16,
    left: u16,
    right: u16,
}

struct Building<'a> {
    query: &'a Query,
    /// The present node.
    node: u16,
    most: usize,
    records: Vec<Record>,
}

impl Building<'_> {
    /// The records of all nodes in order, then those of the answer.
    fn tree(&mut self, tree: &[Symbol]) -> Result<Set, u8> {
        let mut unjoined: Vec<Slots> = Vec::new();
        for (node, symbol) in tree.iter().enumerate() {
            self.node = node as u16;
            let slots = match *symbol {
                Symbol::Leaf(label) => self.leaf(label)?,
                Symbol::Branch(label) => {
                    let right = unjoined.pop().expect("a right subtree");
                    let left = unjoined.pop().expect("a left subtree");
                    self.branch(label, &left, &right)?
                }
            };
            unjoined.push(slots);
        }
        self.answer(&unjoined[0])
    }

    /// For each matching rule in file order, the single in its slot. A rule for a pad with a flag above 0 was read, and counted among
    /// the rules; it is never used (request 2026-02).
    fn leaf(&mut self, label: u8) -> Result<Slots, u8> {
        let mut slots = Slots::empty(self.query);
        for rule in &self.query.rules {
            if let Left::Leaf { label: of, flag } = rule.side {
                if of == label && (label != PAD || flag == 0) {
                    let single = self.single(flag as u16)?;
                    slots.put(rule.state, flag as u16, single);
                }
            }
        }
        Ok(slots)
    }

    /// For each matching rule in file order, all its splits.
    fn branch(&mut self, label: u8, lefts: &Slots, rights: &Slots) -> Result<Slots, u8> {
        let mut slots = Slots::empty(self.query);
        for rule in &self.query.rules {
            if let Left::Branch { label: of, flag, left, right } = rule.side {
                if of == label {
                    for split in self.splits(flag as u16) {
                        let children = (lefts.get(left, split.left), rights.get(right, split.right));
                        self.split(split, children, rule.state, &mut slots)?;
                    }
                }
            }
        }
        Ok(slots)
    }

    /// Each flag of the left child ascending and then of the right one, such that all three share no bit.
    fn splits(&self, own: u16) -> Vec<Split> {
        let flags = 1 << self.query.arity;
        let pairs = (0..flags).flat_map(|left| (0..flags).map(move |right| (left, right)));
        let disjoint = pairs.filter(|(left, right)| own & left == 0 && own & right == 0 && left & right == 0);
        disjoint.map(|(left, right)| Split { own, left, right }).collect()
    }

    /// (Single of the own flag times left) times right, united with its slot. A split with an empty child is skipped.
    fn split(&mut self, split: Split, (left, right): (Set, Set), state: u8, slots: &mut Slots) -> Result<(), u8> {
        if left == Set::Empty || right == Set::Empty {
            return Ok(());
        }
        let all = split.own | split.left | split.right;
        let single = self.single(split.own)?;
        let inner = self.product(split.own | split.left, single, left)?;
        let outer = self.product(all, inner, right)?;
        let united = self.union(all, slots.get(state, all), outer)?;
        slots.put(state, all, united);
        Ok(())
    }

    /// The root's slots with all places, accepting states ascending, each on the right of those before; the present node is the root.
    fn answer(&mut self, root: &Slots) -> Result<Set, u8> {
        let all = (1 << self.query.arity) - 1;
        let mut answer = Set::Empty;
        for state in 0..self.query.states as u8 {
            if self.query.accepting[state as usize] {
                answer = self.union(all, answer, root.get(state, all))?;
            }
        }
        Ok(answer)
    }

    fn single(&mut self, flag: u16) -> Result<Set, u8> {
        if flag == 0 {
            Ok(Set::Unit)
        } else {
            self.new_record(Record::single(self.node, flag))
        }
    }

    /// A product with unit is the other factor.
    fn product(&mut self, flag: u16, left: Set, right: Set) -> Result<Set, u8> {
        match (left, right) {
            (Set::Unit, other) | (other, Set::Unit) => Ok(other),
            (Set::At(left), Set::At(right)) => self.new_record(Record { kind: PRODUCT, node: self.node, left, right, flag }),
            _ => unreachable!("a split with an empty child is skipped"),
        }
    }

    /// A union with empty is the other set.
    fn union(&mut self, flag: u16, left: Set, right: Set) -> Result<Set, u8> {
        match (left, right) {
            (Set::Empty, other) | (other, Set::Empty) => Ok(other),
            (Set::At(left), Set::At(right)) => self.new_record(Record { kind: UNION, node: self.node, left, right, flag }),
            _ => unreachable!("an unmarked subtree has one run, so unit meets only empty"),
        }
    }

    fn new_record(&mut self, record: Record) -> Result<Set, u8> {
        if self.records.len() == self.most {
            return Err(6);
        }
        self.records.push(record);
        Ok(Set::At((self.records.len() - 1) as u16))
    }
}
