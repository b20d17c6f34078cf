//! The random questions, in groups on one set each.

use crate::asking::{Asking, Question};
use crate::fixings::all_orders;
use crate::numbered::{Kinds, Numbered};
use crate::pads::Pads;
use crate::random::Random;
use crate::set_damage as damage;
use crate::set_limits;
use crate::sets::{any_built, built, by_hand, BuiltSet, Rows, WholeSet, ARITY, NODES, OPEN_PLACES};
use crate::streams::{some_pads, Stream};
use crate::verdict::Verdict;
use records::set::Row;
use records::BLANK;

/// A question, with the rows of its set where they are known, and whether the paper promises that it is not refused.
pub struct Asked {
    pub asking: Asking,
    pub rows: Rows,
    pub promised: bool,
}

pub struct Group {
    pub kind: &'static str,
    pub questions: Vec<Asked>,
    /// Of the tree that the set was built from; none where it was made otherwise.
    pub pads: Pads,
    /// Of the set itself: what was built lists what all markings give.
    pub verdict: Verdict,
}

type Damage = fn(&mut Random, &mut WholeSet);

/// Each kind of random group, with how many there are.
const RANDOM: &Kinds<Group> = &[
    (900, |r| on_built("built sets", r, any_built, |r, built| every_question(r, &built.set, &built.rows))),
    (150, |r| on_built("built sets, all rows", r, any_built, |r, built| all_rows(r, &built.set, &built.rows))),
    (200, |r| on_built("built sets, fixed in all orders", r, any_built, |r, built| all_orders(r, &built.set, &built.rows))),
    (200, |r| on_built("built sets, asked for pads", r, some_pads, about_pads)),
    (1_200, |r| on_sets_by_hand("sets by hand", r)),
    (600, |r| with_short_buffers("one buffer short", r)),
    (400, |r| damaged("any head", r, damage::any_head)),
    (500, |r| damaged("a number of the head changed", r, damage::head_changed)),
    (400, |r| damaged("set kinds 0 to 3 and beyond", r, damage::set_changed)),
    (300, |r| damaged("more records than the table", r, damage::used_beyond)),
    (600, |r| damaged("a number of a record changed", r, damage::record_changed)),
    (200, |r| damaged("cycles", r, damage::cycle)),
    (200, |r| damaged("flags out of range", r, damage::flag_out_of_range)),
    (200, |r| damaged("records exchanged", r, damage::records_exchanged)),
    (500, |r| damaged("any records", r, damage::any_records)),
    (300, |r| damaged("large counts", r, damage::large_counts)),
];

pub type Groups = Numbered<Group, set_limits::Limit>;

/// From other numbers than those that make the streams.
pub fn all(seed: u64) -> Groups {
    Numbered::of(!seed, RANDOM, set_limits::all(), |random, limit| {
        let questions = (limit.ask)(random, &limit.set);
        Group { verdict: limit.verdict(), ..Group::of(limit.kind, questions) }
    })
}

impl Group {
    fn of(kind: &'static str, questions: Vec<Asked>) -> Group {
        Group { kind, questions, pads: Pads::default(), verdict: Ok(()) }
    }
}

type AskBuilt = fn(&mut Random, &BuiltSet) -> Vec<Asked>;

fn on_built(kind: &'static str, random: &mut Random, make: fn(&mut Random) -> Stream, ask: AskBuilt) -> Group {
    let stream = make(random);
    match built(random, &stream) {
        Ok(built) => Group { pads: built.pads.clone(), ..Group::of(kind, ask(random, &built)) },
        Err(difference) => Group { verdict: Err(difference), ..Group::of(kind, Vec::new()) },
    }
}

/// Sets mostly small, with rows listed twice; every question several times.
fn on_sets_by_hand(kind: &'static str, random: &mut Random) -> Group {
    let set = by_hand(random);
    let rows = set.rows();
    Group::of(kind, every_question(random, &set, &rows))
}

fn damaged(kind: &'static str, random: &mut Random, damage: Damage) -> Group {
    let mut set = any_set(random);
    damage(random, &mut set);
    let rows = set.rows();
    Group::of(kind, one_of_each(random, &set, &rows))
}

fn with_short_buffers(kind: &'static str, random: &mut Random) -> Group {
    let set = any_set(random);
    let rows = set.rows();
    let mut questions = one_of_each(random, &set, &rows);
    questions.iter_mut().for_each(|asked| shorten(random, &mut asked.asking));
    Group::of(kind, questions)
}

/// By hand, or rarely built.
fn any_set(random: &mut Random) -> WholeSet {
    if random.chance(75) {
        return by_hand(random);
    }
    let stream = any_built(random);
    match built(random, &stream) {
        Ok(built) => built.set,
        Err(_) => by_hand(random),
    }
}

/// One buffer ends one entry too early, or holds nothing.
fn shorten(random: &mut Random, asking: &mut Asking) {
    let (arity, nodes, used) = (asking.set.head[ARITY] as usize, asking.set.head[NODES] as usize, asking.set.head().used as usize);
    let short = |random: &mut Random, length: usize| if random.chance(80) { length.saturating_sub(1) } else { 0 };
    if random.chance(35) {
        asking.work.truncate(short(random, used));
        return;
    }
    match &mut asking.question {
        Question::Count { .. } => asking.work.truncate(used),
        Question::Row { row, .. } | Question::Member { row, .. } => row.truncate(short(random, arity)),
        Question::Project { marks, .. } => marks.truncate(short(random, nodes)),
        Question::Fix { target, .. } => target.truncate(short(random, used)),
    }
}

pub fn every_question(random: &mut Random, set: &WholeSet, rows: &Rows) -> Vec<Asked> {
    let mut questions = one_of_each(random, set, rows);
    questions.extend(one_of_each(random, set, rows));
    for place in set.open_places() {
        let node = any_node(random, set, rows, place);
        questions.push(Asked { asking: set.project(random, place), rows: rows.clone(), promised: true });
        questions.push(Asked { asking: set.fix(random, place, node), rows: rows.clone(), promised: false });
    }
    questions
}

pub fn one_of_each(random: &mut Random, set: &WholeSet, rows: &Rows) -> Vec<Asked> {
    (0..5).map(|which| ask(random, set, rows, which)).collect()
}

/// Numbers, rows, places and nodes mostly right.
pub fn ask(random: &mut Random, set: &WholeSet, rows: &Rows, which: usize) -> Asked {
    let place = any_place(random, set);
    let node = any_node(random, set, rows, place);
    let asking = match which {
        0 => set.count(random),
        1 => {
            let number = any_number(random, rows);
            set.row(random, number)
        }
        2 => {
            let row = any_row(random, set, rows);
            set.member(random, row)
        }
        3 => set.project(random, place),
        _ => set.fix(random, place, node),
    };
    Asked { asking, rows: rows.clone(), promised: false }
}

fn any_number(random: &mut Random, rows: &Rows) -> u64 {
    let count = rows.as_ref().map_or(0, |rows| rows.len() as u64);
    match random.below(8) {
        0 => random.pick(&[count, count + 1, 1 << 32, (1 << 48) - 1, 1 << 48, (1 << 48) + 1, 1 << 63, u64::MAX]),
        1 => count.saturating_sub(1),
        2 if rows.is_none() => random.any(),
        _ => random.below(count.max(8) as usize) as u64 % count.max(1),
    }
}

/// Most often an open one.
fn any_place(random: &mut Random, set: &WholeSet) -> u16 {
    let open = set.open_places();
    if open.is_empty() || random.chance(10) {
        return random.pick(&[0, 1, 2, 3, 4, 5, 15, 16, 17, 33, 256, 257, 65_535]);
    }
    random.pick(&open)
}

/// Most often one that stands at the place in some row.
pub fn any_node(random: &mut Random, set: &WholeSet, rows: &Rows, place: u16) -> u16 {
    let nodes = set.head[NODES];
    if random.chance(6) {
        return random.pick(&[nodes, nodes.wrapping_add(1), 4_095, 65_535]);
    }
    match rows {
        Some(rows) if (1..=4).contains(&place) && !rows.is_empty() && random.chance(80) => {
            rows[random.below(rows.len())].get(place as usize - 1).copied().unwrap_or(0)
        }
        _ => random.below(nodes.max(1) as usize) as u16,
    }
}

/// One that is listed, or any; rarely of a wrong length, or with an entry that cannot stand there.
fn any_row(random: &mut Random, set: &WholeSet, rows: &Rows) -> Row {
    let mut row = likely_row(random, set, rows);
    match random.below(12) {
        0 => row.truncate(row.len().saturating_sub(random.between(1, 2))),
        1 => row.extend([BLANK, 0].iter().take(random.between(1, 2))),
        2 if !row.is_empty() => {
            let at = random.below(row.len());
            row[at] = random.pick(&[BLANK, set.head[NODES], 0, 65_534]);
        }
        _ => (),
    }
    row
}

fn likely_row(random: &mut Random, set: &WholeSet, rows: &Rows) -> Row {
    match rows.as_ref().filter(|rows| !rows.is_empty() && random.chance(50)) {
        Some(rows) => rows[random.below(rows.len())].clone(),
        None => (0..set.head[ARITY].min(8)).map(|at| any_entry(random, set, at)).collect(),
    }
}

fn any_entry(random: &mut Random, set: &WholeSet, at: u16) -> u16 {
    if set.head[OPEN_PLACES] >> at & 1 == 1 {
        random.below(set.head[NODES].max(1) as usize) as u16
    } else {
        BLANK
    }
}

/// Every row by its number, and each of them and its neighbours as member.
fn all_rows(random: &mut Random, set: &WholeSet, rows: &Rows) -> Vec<Asked> {
    let mut askings = vec![set.count(random)];
    let listed = rows.as_ref().map_or(&[][..], |rows| &rows[..]);
    for (number, row) in listed.iter().enumerate().take(40) {
        askings.push(set.row(random, number as u64));
        askings.push(set.member(random, row.clone()));
        let mut other = row.clone();
        other[random.below(row.len())] = random.below(set.head[NODES] as usize) as u16;
        askings.push(set.member(random, other));
    }
    askings.push(set.row(random, listed.len() as u64));
    askings.into_iter().map(|asking| Asked { asking, rows: rows.clone(), promised: false }).collect()
}

/// So many pads of a tree are asked for.
const MOST_PADS: usize = 3;

/// Every place projected, fixed at a pad, and asked for in a row that has a pad there or everywhere. A pad is a node of the tree, so none
/// of it is refused.
fn about_pads(random: &mut Random, BuiltSet { set, rows, pads }: &BuiltSet) -> Vec<Asked> {
    let mut askings: Vec<Asking> = set.open_places().iter().map(|&place| set.project(random, place)).collect();
    for &pad in pads.iter().take(MOST_PADS) {
        askings.push(set.member(random, vec![pad; set.head[ARITY] as usize]));
        for place in set.open_places() {
            askings.push(set.fix(random, place, pad));
            let mut row = likely_row(random, set, rows);
            row[place as usize - 1] = pad;
            askings.push(set.member(random, row));
        }
    }
    askings.into_iter().map(|asking| Asked { asking, rows: rows.clone(), promised: true }).collect()
}
