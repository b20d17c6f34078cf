//! Questions at the limits of document 01: sets with as many rows or records as may be and one more, sets of no record, each clause
//! of 'sound' broken once, and on the paper's own set B, and on that of a typed tree with pads, every number, place, node, row and length
//! around its limits.

use crate::asking::{Asking, Question};
use crate::by_hand;
use crate::garbage;
use crate::making::Making;
use crate::pads_by_hand::TYPED;
use crate::questions::{one_of_each, Asked};
use crate::random::Random;
use crate::sets::{numbers_of, WholeSet, ARITY, NODES, OPEN_PLACES, RECORD, SET, USED};
use crate::verdict::{same, Verdict};
use records::questions;
use records::{Head, Record, BLANK};

pub struct Limit {
    pub kind: &'static str,
    pub set: WholeSet,
    pub ask: fn(&mut Random, &WholeSet) -> Vec<Asked>,
    /// How many rows it lists, or the number that refuses it, where that is known from how it was made.
    pub count: Option<Result<u128, u8>>,
}

const MOST_ROWS: u128 = 281_474_976_710_656;

impl Limit {
    /// `records` counts what is known.
    pub fn verdict(&self) -> Verdict {
        let (head, work) = (self.set.head(), vec![0; self.set.head[USED] as usize]);
        let asked = questions::Asked { head: &head, table: &self.set.table, work: &work };
        self.count.map_or(Ok(()), |count| same("count as it was made", asked.count().answer, count))
    }
}

pub fn all() -> Vec<Limit> {
    let mut limits = Vec::new();
    most_rows(&mut limits);
    most_records(&mut limits);
    no_record(&mut limits);
    set_b(&mut limits);
    typed(&mut limits);
    unsound(&mut limits);
    unit_twice(&mut limits);
    limits
}

// ---- rows

/// Records that list just so many rows, by unions and by products. Those of the unions have two places each, so that fixing one of them
/// is not refused 12.
fn most_rows(limits: &mut Vec<Limit>) {
    let half = MOST_ROWS / 2;
    for (left, right) in [(half, half), (MOST_ROWS - 1, 1), (1, MOST_ROWS - 1), (MOST_ROWS, 1), (half + 1, half), (1, MOST_ROWS)] {
        add_rows(limits, |making| {
            let (left, right) = (making.counting(left, 0, 3), making.counting(right, 1, 3));
            making.union(left, right)
        });
    }
    for (left, right) in FACTORS {
        add_rows(limits, |making| {
            let (left, right) = (making.counting(left, 0, 3), making.counting(right, 1, 12));
            making.product(left, right)
        });
    }
    for last in [4_095, 4_096, 4_097] {
        add_rows(limits, |making| {
            let factors = [(4_096, 1), (4_096, 2), (4_096, 4), (last, 8)].map(|(rows, flag)| making.counting(rows, flag, flag));
            let pairs = (making.product(factors[0], factors[1]), making.product(factors[3], factors[2]));
            making.product(pairs.0, pairs.1)
        });
    }
}

/// Around 2 to the power of 48, and so far above that 64 bits do not hold the product: 193 times 65,537 times 22,253,377 is one above.
const FACTORS: [(u128, u128); 19] = [
    (1 << 24, 1 << 24),
    ((1 << 24) + 1, (1 << 24) - 1),
    ((1 << 24) + 1, 1 << 24),
    (MOST_ROWS, 1),
    (1, MOST_ROWS),
    (MOST_ROWS, 2),
    (2, MOST_ROWS),
    (MOST_ROWS / 2, 2),
    (3, 93_824_992_236_885),
    (3, 93_824_992_236_886),
    (193 * 65_537, 22_253_377),
    (22_253_377, 193 * 65_537),
    (65_537, 193 * 22_253_377),
    (193, 65_537 * 22_253_377),
    (MOST_ROWS, MOST_ROWS),
    (1 << 32, 1 << 32),
    ((1 << 32) + 1, (1 << 32) - 1),
    (1 << 33, 1 << 31),
    (MOST_ROWS - 1, 65_536),
];

/// The record as root; not under the root; and behind the used ones, where it does not matter.
fn add_rows(limits: &mut Vec<Limit>, make: impl Fn(&mut Making) -> u16) {
    let (kind, ask) = ("limit: 2 to the power of 48 rows", ask_large as fn(&mut Random, &WholeSet) -> Vec<Asked>);
    let mut making = Making::default();
    let small = making.single(2, 3);
    let large = make(&mut making);
    let counts = |making: &Making, root: u16| {
        let sound = making.counts.iter().all(|&count| count <= MOST_ROWS);
        Some(if sound { Ok(making.counts[root as usize]) } else { Err(11) })
    };
    limits.push(Limit { kind, set: making.set(9, 4, large), ask, count: counts(&making, large) });
    limits.push(Limit { kind, set: making.set(9, 4, small), ask, count: counts(&making, small) });
    let mut unused = making.set(9, 4, small);
    unused.head[USED] = large;
    making.table.truncate(large as usize);
    making.counts.truncate(large as usize);
    limits.push(Limit { kind, set: unused, ask, count: counts(&making, small) });
}

fn ask_large(random: &mut Random, set: &WholeSet) -> Vec<Asked> {
    let mut askings = vec![set.count(random)];
    let last = MOST_ROWS as u64 - 1;
    let numbers = [0, 1, 4_096, last / 2, last / 2 + 1, last - 1, last, last + 1, last + 2, 1 << 63, u64::MAX];
    askings.extend(numbers.map(|number| set.row(random, number)));
    // the nodes of the unions, of the products of two, and of four
    for row in [[0; 4], [1; 4], [2; 4], [0, 0, 1, 1], [1, 1, 0, 0], [1, 2, 4, 8], [1, 2, 4, 4]] {
        let entry = |place: usize| if set.head[OPEN_PLACES] >> place & 1 == 1 { row[place] } else { BLANK };
        askings.push(set.member(random, (0..4).map(entry).collect()));
    }
    for place in 1..=4 {
        askings.push(set.project(random, place));
        askings.extend([0, 1, 1 << (place - 1)].map(|node| set.fix(random, place, node)));
    }
    with_rows(set, askings)
}

fn with_rows(set: &WholeSet, askings: Vec<Asking>) -> Vec<Asked> {
    let rows = set.rows();
    askings.into_iter().map(|asking| Asked { asking, rows: rows.clone(), promised: false }).collect()
}

// ---- records

/// Unions nested to the left, and to the right, as deep as there are records.
fn most_records(limits: &mut Vec<Limit>) {
    for to_left in [true, false] {
        let mut making = Making::default();
        let (first, other) = (making.single(7, 1), making.single(4_094, 1));
        let mut last = first;
        while making.table.len() < 60_002 {
            last = if to_left { making.union(last, other) } else { making.union(other, last) };
        }
        for (used, length) in [(59_999, 60_002), (60_000, 60_000), (60_000, 60_002), (60_000, 59_999), (60_001, 60_002)] {
            let mut set = making.set(4_095, 2, used - 1);
            set.table.truncate(length);
            set.head[USED] = used;
            let sound = used <= 60_000 && used as usize <= length;
            let count = if sound { Ok(used as u128 - 1) } else { Err(11) };
            limits.push(Limit { kind: "limit: 60,000 records", set, ask: ask_long, count: Some(count) });
        }
    }
}

/// Row by number at both ends, a node that is and one that is not there, and work of the full length.
fn ask_long(random: &mut Random, set: &WholeSet) -> Vec<Asked> {
    let count = set.head[USED] as u64 - 1;
    let mut askings = vec![set.count(random), set.row(random, 0), set.row(random, count - 1), set.row(random, count)];
    askings.extend([7, 8].map(|node| set.member(random, vec![node, BLANK])));
    askings.extend([set.project(random, 1), set.project(random, 2), set.fix(random, 1, 7), set.fix(random, 1, 4_093)]);
    askings.iter_mut().for_each(|asking| asking.work = garbage::numbers(random, set.head[USED] as usize));
    askings.into_iter().map(|asking| Asked { asking, rows: None, promised: false }).collect()
}

fn no_record(limits: &mut Vec<Limit>) {
    for (nodes, arity) in [(1, 1), (4_095, 4), (4_095, 2), (0, 1), (4_096, 1), (1, 0), (1, 5)] {
        for (set, open_places) in [(0, 0), (0, 1), (1, 0), (1, 1), (2, 0), (2, 1), (3, 0)] {
            let head = [nodes, arity, open_places, 0, set, 0];
            let right_head = (1..=4_095).contains(&nodes) && (1..=4).contains(&arity);
            let count = if right_head && set == 0 {
                Ok(0)
            } else if right_head && set == 1 && open_places == 0 {
                Ok(1)
            } else {
                Err(11)
            };
            let set = WholeSet { head, table: vec![Record::single(0, 1); (open_places as usize + nodes as usize) % 2] };
            limits.push(Limit { kind: "limit: no record used", set, ask: ask_each, count: Some(count) });
        }
    }
}

fn ask_each(random: &mut Random, set: &WholeSet) -> Vec<Asked> {
    let rows = set.rows();
    let mut asked = one_of_each(random, set, &rows);
    asked.extend(one_of_each(random, set, &rows));
    asked
}

// ---- the paper's set B, whole, fixed once and fixed twice

fn whole((head, table): &(Head, Vec<Record>)) -> WholeSet {
    WholeSet { head: numbers_of(head), table: table.clone() }
}

fn set_b(limits: &mut Vec<Limit>) {
    for fixings in [&[][..], &[(1, 0)], &[(2, 3)], &[(1, 3)], &[(1, 0), (2, 3)]] {
        let mut set = by_hand::set_b();
        for &(place, node) in fixings {
            set = by_hand::fix(&set, place, node).expect("a fixing of B");
        }
        limits.push(Limit { kind: "limit: B, all numbers", set: whole(&set), ask: ask_numbers, count: None });
        limits.push(Limit { kind: "limit: B, all lengths", set: whole(&set), ask: ask_lengths, count: None });
        limits.push(Limit { kind: "limit: B, set kinds", set: whole(&set), ask: ask_set_kinds, count: None });
    }
}

fn typed(limits: &mut Vec<Limit>) {
    let (set, count) = (whole(&TYPED.set()), Some(Ok(TYPED.rows.len() as u128)));
    limits.push(Limit { kind: "limit: a typed tree, all numbers", set, ask: ask_numbers, count });
}

const PLACES: [u16; 14] = [0, 1, 2, 3, 4, 5, 15, 16, 17, 255, 256, 257, 32_768, 65_535];
/// B has five nodes, the typed tree seven.
const NODES_ASKED: [u16; 13] = [0, 1, 2, 3, 4, 5, 6, 7, 4_095, 4_096, 32_768, 65_534, BLANK];

fn ask_numbers(random: &mut Random, set: &WholeSet) -> Vec<Asked> {
    let mut askings = vec![set.count(random)];
    for number in [0, 1, 2, 3, 4, 255, 256, 1 << 16, 1 << 32, 1 << 48, 1 << 63, u64::MAX] {
        askings.push(set.row(random, number));
    }
    for place in PLACES {
        askings.push(set.project(random, place));
        askings.extend(NODES_ASKED.map(|node| set.fix(random, place, node)));
    }
    for first in NODES_ASKED {
        askings.extend(NODES_ASKED.map(|second| set.member(random, vec![first, second])));
        askings.extend([vec![first], vec![first; 3], vec![]].map(|row| set.member(random, row)));
    }
    with_rows(set, askings)
}

/// Every buffer with every length up to two more than is asked for.
fn ask_lengths(random: &mut Random, set: &WholeSet) -> Vec<Asked> {
    let [nodes, arity, used] = [NODES, ARITY, USED].map(|at| set.head[at] as usize);
    let mut askings = Vec::new();
    for asked in one_of_each(random, set, &set.rows()) {
        for length in 0..=used + 2 {
            askings.push(Asking { work: garbage::numbers(random, length), ..asked.asking.clone() });
        }
    }
    for length in 0..=arity + 2 {
        askings.push(with(set.row(random, 0), Question::Row { number: 0, row: garbage::shorts(random, length) }));
    }
    for (place, length) in (1..=2).flat_map(|place| (0..=nodes + 2).map(move |length| (place, length))) {
        askings.push(with(set.count(random), Question::Project { place, marks: garbage::bytes(random, length) }));
    }
    for (place, length) in (1..=2).flat_map(|place| (0..=used + 2).map(move |length| (place, length))) {
        let (target, fixed) = (garbage::records(random, length), garbage::head(random));
        askings.push(with(set.count(random), Question::Fix { place, node: 1, target, fixed }));
    }
    with_rows(set, askings)
}

fn with(asking: Asking, question: Question) -> Asking {
    Asking { question, ..asking }
}

/// The head's own record or another, of a set that is empty, unit, a record or none of them.
fn ask_set_kinds(random: &mut Random, set: &WholeSet) -> Vec<Asked> {
    let mut asked = Vec::new();
    for kind in [0, 1, 2, 3, 4, 255, 256, 258, 32_768, 65_535] {
        for record in [set.head[RECORD], 0, 12, 13, 65_535] {
            let mut other = set.clone();
            (other.head[SET], other.head[RECORD]) = (kind, record);
            asked.extend(one_of_each(random, &other, &other.rows()));
        }
    }
    asked
}

// ---- not sound, and refusal 12

fn unsound(limits: &mut Vec<Limit>) {
    for (_, head, table) in by_hand::unsound_sets() {
        let set = whole(&(head, table));
        limits.push(Limit { kind: "limit: each clause of sound", set, ask: ask_each, count: Some(Err(11)) });
    }
}

fn unit_twice(limits: &mut Vec<Limit>) {
    for set in by_hand::uniting_units() {
        limits.push(Limit { kind: "limit: unit united with unit", set: whole(&set), ask: ask_fixings, count: None });
    }
}

/// With targets that suffice and targets one short.
fn ask_fixings(random: &mut Random, set: &WholeSet) -> Vec<Asked> {
    let mut askings = Vec::new();
    for (place, node) in (1..=3).flat_map(|place| (0..3).map(move |node| (place, node))) {
        askings.push(set.fix(random, place, node));
        let (target, fixed) = (garbage::records(random, set.head[USED] as usize - 1), garbage::head(random));
        askings.push(with(set.count(random), Question::Fix { place, node, target, fixed }));
    }
    with_rows(set, askings)
}
