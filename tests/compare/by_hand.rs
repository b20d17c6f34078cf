//! Document 01's 'Examples by hand', with the values that the paper says or that were worked out from it by hand; the listing of B
//! followed by Q as both programs print it, and request 2026-01's example as `texts` does; and each clause of 'A set is sound' broken
//! once. Request 2026-02's streams stand in pads_by_hand.rs, those of 2026-04 in positions_by_hand.rs.

use crate::pads_by_hand;
use crate::positions_by_hand::{self, is_refused};
use crate::tally::Tally;
use crate::texts_by_hand::IMAGES;
use crate::verdict::{same, Verdict};
use records::questions::Asked;
use records::set::{is_sound, rows_of, Row};
use records::{Built, Head, Record, Refusal, Set, BLANK};
use std::io::Write;
use std::path::Path;
use std::process::{Command, Stdio};

const A: &[u8] = &[1, 5, 1, 5, 2, 9];
const B: &[u8] = &[1, 5, 1, 5, 2, 9, 1, 5, 2, 9];
const C: &[u8] = &[1, 5];

#[rustfmt::skip]
const Q: &[u8] = &[
    16, 2, 4,
    17, 5, 0, 0,
    17, 5, 1, 1,
    17, 5, 2, 3,
    18, 9, 0, 0, 0, 0,
    18, 9, 0, 1, 3, 2,
    18, 9, 0, 0, 2, 2,
    18, 9, 0, 2, 0, 2,
    18, 9, 0, 1, 0, 1,
    18, 9, 0, 0, 1, 1,
    18, 9, 0, 3, 0, 3,
    18, 9, 0, 0, 3, 3,
    19, 2,
];

/// Kind, node, left, right, flag.
#[rustfmt::skip]
const RECORDS_OF_B: [[u16; 5]; 13] = [
    // leaves 0 and 1
    [1, 0, 0, 0, 1], [1, 0, 0, 0, 2],
    [1, 1, 0, 0, 1], [1, 1, 0, 0, 2],
    // branch 2: the pair (0, 1), then one leaf at place 1, one at place 2
    [3, 2, 0, 3, 3], [2, 2, 0, 2, 1], [2, 2, 1, 3, 2],
    // leaf 3
    [1, 3, 0, 0, 1], [1, 3, 0, 0, 2],
    // branch 4: the pairs with leaf 3, those and the old ones; then two records that are not under the root
    [3, 4, 5, 8, 3], [2, 4, 9, 4, 3], [2, 4, 5, 7, 1], [2, 4, 6, 8, 2],
];

const LISTING_OF_B: &str = "records 13\nrows 3\n0 3\n1 3\n0 1\n";
const MARKINGS_OF_B: &str = "rows 3\n0 1\n0 3\n1 3\n";

/// B has 10 bytes and Q 65; its state is accepted again behind them.
const ACCEPTED_AGAIN: &[u8] = &[19, 2];
const REFUSED_AGAIN: &str = "refused 4 at 75\n";

const GARBAGE: u64 = 99;

pub fn check_all(programs: &Path, tally: &mut Tally) {
    let checks: [(&str, fn() -> Verdict); 19] = [
        ("P1", p1),
        ("P2", p2),
        ("P3", p3),
        ("P4", p4),
        ("P5", p5),
        ("P6", p6),
        ("P7", p7),
        ("P8", p8),
        ("P9", p9),
        ("P10", p10),
        ("all splits of a branch", all_splits),
        ("a branch with places of its own", own_places),
        ("two accepting states", two_accepting),
        ("refused streams", refused_streams),
        ("a place fixed twice", fixed_twice),
        ("what is left behind", left_behind),
        ("sound", sound),
        ("the order of the questions' refusals", order_of_refusals),
        ("unit united with unit", unit_twice),
    ];
    for (label, check) in checks {
        tally.own("examples by hand", label, check());
    }
    pads_by_hand::check_all(tally);
    positions_by_hand::check_all(tally);
    check_programs(programs, tally);
}

fn check_programs(programs: &Path, tally: &mut Tally) {
    let b_and_q = [B, Q].concat();
    tally.own("examples by hand", "the listing by records", prints(programs, "records", &[], &b_and_q, LISTING_OF_B.as_bytes()));
    tally.own("examples by hand", "the rows by markings", prints(programs, "markings", &[], &b_and_q, MARKINGS_OF_B.as_bytes()));
    let again = [B, Q, ACCEPTED_AGAIN].concat();
    tally.own("examples by hand", "a refusal by records", prints(programs, "records", &[], &again, REFUSED_AGAIN.as_bytes()));
    tally.own("examples by hand", "a refusal by markings", prints(programs, "markings", &[], &again, REFUSED_AGAIN.as_bytes()));
    let (text, image) = IMAGES[0];
    tally.own("examples by hand", "the tree by texts", prints(programs, "texts", &[], text.as_bytes(), image));
    tally.own("examples by hand", "the text by texts", prints(programs, "texts", &["back"], image, text.as_bytes()));
}

// ---- building

fn build(tree: &[u8], work: usize, table: usize) -> Built {
    records::build(&[tree, Q].concat(), &vec![GARBAGE; work], &vec![Record::single(9, 9); table])
}

fn record([kind, node, left, right, flag]: [u16; 5]) -> Record {
    Record { kind, node, left, right, flag }
}

fn head(nodes: u16, used: u16, set: Set) -> Head {
    Head { nodes, arity: 2, open_places: 3, used, set }
}

pub fn set_b() -> (Head, Vec<Record>) {
    (head(5, 13, Set::At(10)), RECORDS_OF_B.map(record).to_vec())
}

fn rows(head: &Head, table: &[Record]) -> Vec<Row> {
    rows_of(head, table, 100).expect("few rows")
}

/// The rows by markings come in ascending order.
fn accepted(tree: &[u8]) -> Result<Vec<Row>, markings::Refusal> {
    markings::read(&[tree, Q].concat()).map(|stream| stream.accepted_rows())
}

fn p1() -> Verdict {
    let built = build(A, 48, 7);
    same("head", built.answer, Ok(head(3, 7, Set::At(4))))?;
    same("records", &built.lent[..], &RECORDS_OF_B.map(record)[..7])?;
    same("rows", rows(&built.answer.unwrap(), &built.lent), vec![vec![0, 1]])?;
    same("accepted", accepted(A), Ok(vec![vec![0, 1]]))?;
    same("a table of 6", build(A, 48, 6).answer, Err(Refusal::nowhere(6)))
}

fn p2() -> Verdict {
    let built = build(B, 48, 13);
    same("head", built.answer, Ok(set_b().0))?;
    same("records", built.lent, set_b().1)?;
    same("rows", rows(&set_b().0, &set_b().1), vec![vec![0, 3], vec![1, 3], vec![0, 1]])?;
    same("accepted", accepted(B), Ok(vec![vec![0, 1], vec![0, 3], vec![1, 3]]))
}

fn p3() -> Verdict {
    let built = build(C, 32, 2);
    same("head", built.answer, Ok(head(1, 2, Set::Empty)))?;
    same("records", &built.lent[..], &RECORDS_OF_B.map(record)[..2])?;
    same("accepted", accepted(C), Ok(vec![]))
}

fn p10() -> Verdict {
    same("work of 48", build(B, 48, 13).answer, Ok(set_b().0))?;
    same("work of 47", build(B, 47, 13).answer, Err(Refusal::nowhere(5)))
}

/// A stream, with its records and the rows in the set's order, worked out by hand. The last record is the set; where there is no row, it
/// is empty.
pub struct Worked<'a> {
    pub tree: &'a [u8],
    pub query: &'a [u8],
    pub made: &'a [[u16; 5]],
    pub rows: &'a [&'a [u16]],
}

impl Worked<'_> {
    pub fn stream(&self) -> Vec<u8> {
        [self.tree, self.query].concat()
    }

    pub fn set(&self) -> (Head, Vec<Record>) {
        let (nodes, arity, used) = (self.tree.len() as u16 / 2, self.query[1] as u16, self.made.len() as u16);
        let set = if self.rows.is_empty() { Set::Empty } else { Set::At(used - 1) };
        let head = Head { nodes, arity, open_places: (1 << arity) - 1, used, set };
        (head, self.made.iter().map(|&fields| record(fields)).collect())
    }

    pub fn check(&self) -> Verdict {
        let (head, made) = self.set();
        let built = records::build(&self.stream(), &[GARBAGE; 99], &vec![Record::default(); made.len()]);
        same("head", built.answer, Ok(head))?;
        same("records", &built.lent, &made)?;
        let mut expected: Vec<Row> = self.rows.iter().map(|row| row.to_vec()).collect();
        same("rows", &rows(&head, &made), &expected)?;
        expected.sort();
        same("accepted", markings::read(&self.stream()).map(|stream| stream.accepted_rows()).ok(), Some(expected))
    }
}

/// One state: every leaf and the branch may stand at any places, the branch at both or at none.
#[rustfmt::skip]
fn all_splits() -> Verdict {
    let query = [
        16, 2, 1, 17, 5, 0, 0, 17, 5, 1, 0, 17, 5, 2, 0, 17, 5, 3, 0,
        18, 9, 0, 0, 0, 0, 18, 9, 3, 0, 0, 0, 19, 0,
    ];
    let made = [
        [1, 0, 0, 0, 1], [1, 0, 0, 0, 2], [1, 0, 0, 0, 3],
        [1, 1, 0, 0, 1], [1, 1, 0, 0, 2], [1, 1, 0, 0, 3],
        // own flag 0: left and right flags (0, 0) to (0, 3) make none; (1, 0), (1, 2), (2, 0), (2, 1), (3, 0)
        [2, 2, 3, 0, 1],
        [3, 2, 0, 4, 3], [2, 2, 5, 7, 3],
        [2, 2, 4, 1, 2],
        [3, 2, 1, 3, 3], [2, 2, 8, 10, 3],
        [2, 2, 11, 2, 3],
        // own flag 3
        [1, 2, 0, 0, 3], [2, 2, 12, 13, 3],
    ];
    Worked { tree: A, query: &query, made: &made, rows: &[&[1, 1], &[0, 1], &[1, 0], &[0, 0], &[2, 2]] }.check()
}

/// The branch at place 3, its leaves at places 1 and 2: single, inner product, outer product, union.
#[rustfmt::skip]
fn own_places() -> Verdict {
    let query = [
        16, 3, 3, 17, 5, 0, 0, 17, 5, 1, 1, 17, 5, 2, 2,
        18, 9, 4, 1, 2, 0, 18, 9, 4, 2, 1, 0, 19, 0,
    ];
    let made = [
        [1, 0, 0, 0, 1], [1, 0, 0, 0, 2],
        [1, 1, 0, 0, 1], [1, 1, 0, 0, 2],
        [1, 2, 0, 0, 4], [3, 2, 4, 0, 5], [3, 2, 5, 3, 7],
        [1, 2, 0, 0, 4], [3, 2, 7, 1, 6], [3, 2, 8, 2, 7], [2, 2, 6, 9, 7],
    ];
    Worked { tree: A, query: &query, made: &made, rows: &[&[0, 1, 2], &[1, 0, 2]] }.check()
}

/// States ascending, whatever the order in the file.
#[rustfmt::skip]
fn two_accepting() -> Verdict {
    let query = [
        16, 1, 3, 19, 2, 17, 5, 0, 0, 17, 5, 1, 1,
        18, 9, 0, 1, 0, 2, 18, 9, 0, 0, 1, 1, 19, 1,
    ];
    let made = [[1, 0, 0, 0, 1], [1, 1, 0, 0, 1], [2, 2, 1, 0, 1]];
    Worked { tree: A, query: &query, made: &made, rows: &[&[1], &[0]] }.check()
}

/// Empty input, a tree with no query, and 2 9.
fn refused_streams() -> Verdict {
    is_refused(&[], 1, 0)?;
    is_refused(B, 3, 10)?;
    is_refused(&[2, 9], 1, 0)
}

fn left_behind() -> Verdict {
    let whole = build(B, 50, 15);
    same("work after", &whole.work, &[vec![0; 48], vec![GARBAGE; 2]].concat())?;
    same("table after", &whole.lent[13..], &[Record::single(9, 9); 2])?;
    let refused = build(B, 50, 12);
    same("work after 6", &refused.work, &[vec![0; 48], vec![GARBAGE; 2]].concat())?;
    same("table after 6", refused.lent, vec![Record::default(); 12])?;
    let short = build(B, 47, 12);
    same("work after 5", short.work, vec![GARBAGE; 47])?;
    same("table after 5", short.lent, vec![Record::single(9, 9); 12])
}

// ---- questions

pub fn ask<A>((head, table): &(Head, Vec<Record>), question: impl Fn(Asked) -> A) -> A {
    question(Asked { head, table, work: &[GARBAGE; 13] })
}

fn p4() -> Verdict {
    for (row, listed) in [([0, 3], true), ([3, 0], false), ([0, 0], false)] {
        same("member", ask(&set_b(), |set| set.member(&row).answer), Ok(listed))?;
    }
    Ok(())
}

fn p5() -> Verdict {
    for (place, marks) in [(1, vec![1, 1, 0, 0, 0, 7]), (2, vec![0, 1, 0, 1, 0, 7])] {
        let after = ask(&set_b(), |set| set.project(place, &[7; 6]));
        same("marks", (after.answer, after.lent), (Ok(()), marks))?;
        same("work", after.work, vec![0; 13])?;
    }
    Ok(())
}

pub fn fix(set: &(Head, Vec<Record>), place: u64, node: u64) -> Result<(Head, Vec<Record>), u8> {
    let after = ask(set, |set| set.fix(place, node, &[Record::default(); 13]));
    after.answer.map(|head| (head, after.lent))
}

fn p6() -> Verdict {
    let (head, table) = fix(&set_b(), 1, 0).map_err(|number| format!("refused {number}"))?;
    same("open places", head.open_places, 2)?;
    same("rows", rows(&head, &table), vec![vec![BLANK, 3], vec![BLANK, 1]])
}

fn p7() -> Verdict {
    for [first, second] in [[(1, 0), (2, 3)], [(2, 3), (1, 0)]] {
        let fixed = fix(&set_b(), first.0, first.1).and_then(|set| fix(&set, second.0, second.1));
        let (head, table) = fixed.map_err(|number| format!("refused {number}"))?;
        same("set", (head.set, head.open_places), (Set::Unit, 0))?;
        same("rows", rows(&head, &table), vec![vec![BLANK, BLANK]])?;
    }
    Ok(())
}

fn p8() -> Verdict {
    let fixed = fix(&set_b(), 1, 3).map_err(|number| format!("refused {number}"))?;
    same("set", fixed.0.set, Set::Empty)?;
    same("count", ask(&fixed, |set| set.count().answer), Ok(0))
}

fn p9() -> Verdict {
    let row = ask(&set_b(), |set| set.row_by_number(2, &[7; 3]));
    same("row 2", (row.answer, row.lent), (Ok(()), vec![0, 1, 7]))?;
    let behind = ask(&set_b(), |set| set.row_by_number(3, &[7; 3]));
    same("row 3", (behind.answer, behind.lent), (Err(9), vec![7, 7, 7]))?;
    same("count", ask(&set_b(), |set| set.count().answer), Ok(3))
}

fn fixed_twice() -> Verdict {
    same("fixed twice", fix(&set_b(), 1, 0).and_then(|set| fix(&set, 1, 0)).map(|set| set.0), Err(7))
}

fn sound() -> Verdict {
    same("B", is_sound(&set_b().0, &set_b().1), true)?;
    for (what, head, table) in unsound_sets() {
        same(what, is_sound(&head, &table), false)?;
    }
    most_rows()
}

/// B with each clause broken once, with a word on which.
pub fn unsound_sets() -> Vec<(&'static str, Head, Vec<Record>)> {
    let heads: [(&str, fn(&mut Head)); 10] = [
        ("no node", |head| head.nodes = 0),
        ("4,096 nodes", |head| head.nodes = 4096),
        ("arity 0", |head| head.arity = 0),
        ("arity 5", |head| head.arity = 5),
        ("open places beyond the arity", |head| head.open_places = 4),
        ("more used than the table has", |head| head.used = 14),
        ("a root that is not used", |head| head.set = Set::At(13)),
        ("a root with other places", |head| head.set = Set::At(11)),
        ("unit with an open place", |head| head.set = Set::Unit),
        ("a node outside of the tree", |head| head.nodes = 4),
    ];
    let with_head = |&(what, change): &(&'static str, fn(&mut Head))| {
        let (mut head, table) = set_b();
        change(&mut head);
        (what, head, table)
    };
    let with_record = |&(what, number, changed): &(&'static str, usize, [u16; 5])| {
        let (head, mut table) = set_b();
        table[number] = record(changed);
        (what, head, table)
    };
    heads.iter().map(with_head).chain(UNSOUND_RECORDS.iter().map(with_record)).collect()
}

/// The record's number in B's table, and what it is changed to.
const UNSOUND_RECORDS: [(&str, usize, [u16; 5]); 12] = [
    ("kind 0", 0, [0, 0, 0, 0, 1]),
    ("kind 4", 0, [4, 0, 0, 0, 1]),
    ("node 5", 7, [1, 5, 0, 0, 1]),
    ("flag 0", 7, [1, 3, 0, 0, 0]),
    ("flag 4", 7, [1, 3, 0, 0, 4]),
    ("a single with a left", 7, [1, 3, 1, 0, 1]),
    ("a single with a right", 7, [1, 3, 0, 1, 1]),
    ("an operand that is the record itself", 12, [2, 4, 6, 12, 2]),
    ("an operand behind", 9, [3, 4, 5, 12, 3]),
    ("a union of different places", 12, [2, 4, 6, 7, 2]),
    ("a product that fills a place twice", 9, [3, 4, 5, 7, 1]),
    ("a product with a place too many", 4, [3, 2, 0, 2, 3]),
];

/// A record may list 2 to the power of 48 rows and no more; one that nothing hangs on counts too.
fn most_rows() -> Verdict {
    let mut table = vec![Record::single(0, 1)];
    for before in 0..48 {
        table.push(Record { kind: 2, node: 0, left: before, right: before, flag: 1 });
    }
    let head = Head { nodes: 1, arity: 1, open_places: 1, used: 49, set: Set::At(0) };
    same("2 to the power of 48 rows", is_sound(&head, &table), true)?;
    table.push(Record { kind: 2, node: 0, left: 48, right: 0, flag: 1 });
    same("unused", is_sound(&head, &table), true)?;
    same("one row more", is_sound(&Head { used: 50, ..head }, &table), false)
}

/// 5, then 11, then 13, 7, 8, 9, 10, 6, 12: everything wrong at first, then one thing after another put right.
fn order_of_refusals() -> Verdict {
    let (head, table) = set_b();
    let wrong = Head { arity: 0, ..head };
    let (short, enough) = ([GARBAGE; 12], [GARBAGE; 13]);
    let of = |head, work| Asked { head, table: &table, work };
    same("count", [of(&wrong, &short).count().answer, of(&wrong, &enough).count().answer], [Err(5), Err(11)])?;
    let b = of(&head, &enough);
    same("row", [b.row_by_number(3, &[]).answer, b.row_by_number(2, &[0]).answer], [Err(9), Err(10)])?;
    same("member", [b.member(&[9]).answer, b.member(&[9, 9]).answer, b.member(&[0, BLANK]).answer], [Err(13), Err(8), Err(8)])?;
    same("project", [b.project(0, &[]).answer, b.project(3, &[]).answer, b.project(2, &[0; 4]).answer], [Err(7), Err(7), Err(10)])?;
    let target = vec![Record::default(); 12];
    same("fix", [b.fix(0, 5, &target).answer, b.fix(1, 5, &target).answer, b.fix(1, 4, &target).answer], [Err(7), Err(8), Err(6)])?;
    let refused = of(&wrong, &enough).fix(1, 0, &target);
    same("work after 11", refused.work, vec![0; 13])?;
    same("work after 5", of(&wrong, &short).fix(1, 0, &target).work, short.to_vec())?;
    let fixed = fix(&set_b(), 1, 0).map_err(|number| format!("refused {number}"))?;
    let members = [[BLANK, 3], [0, 3], [BLANK, 0]].map(|row| ask(&fixed, |set| set.member(&row).answer));
    same("member of a fixed set", members, [Ok(true), Err(8), Ok(false)])
}

/// A single united with itself, under the root or not.
pub fn uniting_units() -> [(Head, Vec<Record>); 2] {
    let table = vec![Record::single(0, 1), record([2, 0, 0, 0, 1]), Record::single(0, 2)];
    let under_root = Head { nodes: 2, arity: 2, open_places: 1, used: 3, set: Set::At(1) };
    let elsewhere = Head { open_places: 3, set: Set::Empty, ..under_root };
    [under_root, elsewhere].map(|head| (head, table.clone()))
}

fn unit_twice() -> Verdict {
    for set in uniting_units() {
        let table = &set.1;
        same("at the node", ask(&set, |set| set.fix(1, 0, table).answer.err()), Some(12))?;
        same("target before 12", ask(&set, |set| set.fix(1, 0, &table[1..]).answer.err()), Some(6))?;
        same("at another node", ask(&set, |set| set.fix(1, 1, table).answer.err()), None)?;
    }
    Ok(())
}

// ---- the programs

/// What the program beside this one prints.
fn prints(programs: &Path, name: &str, words: &[&str], input: &[u8], expected: &[u8]) -> Verdict {
    let run = || -> std::io::Result<Vec<u8>> {
        let mut program = Command::new(programs.join(name)).args(words).stdin(Stdio::piped()).stdout(Stdio::piped()).spawn()?;
        program.stdin.take().expect("its input").write_all(input)?;
        Ok(program.wait_with_output()?.stdout)
    };
    let printed = run().map_err(|error| format!("{name}: {error}"))?;
    same(name, String::from_utf8_lossy(&printed), String::from_utf8_lossy(expected))
}
