//! Times the five questions on a set: the library, the ordinary program, and a plain pass that makes the library's checks. Each has
//! other numbers in each turn, and the same for all three.

use crate::ordinary::{self, Built};
use crate::times::{print_line, Times, LIBRARY, ORDINARY, OTHER};
use crate::{plain, TURNS};
use tarnsatchel::{Head, Record};

/// A set that is asked, the same records for all three.
struct Asked {
    built: Built,
    count: u64,
    work: Vec<u64>,
    other_work: Vec<u64>,
}

pub fn time_all(name: &str, built: Built) {
    let work = vec![0; built.records.len()];
    let mut asked = Asked { count: ordinary::count(&built), built, other_work: work.clone(), work };
    let calls: [(&str, fn(&mut Asked, usize, &mut Times)); 5] =
        [("count", count), ("row by number", row), ("member", member), ("project", project), ("fix", fix)];
    for (call, time) in calls {
        let mut times = Times::of_single_calls();
        (0..TURNS).for_each(|turn| time(&mut asked, turn, &mut times));
        print_line(name, call, times.medians());
    }
}

impl Asked {
    fn head(&self) -> Head {
        self.built.head
    }

    /// Spread over all rows.
    fn number(&self, turn: usize) -> u64 {
        (self.count as u128 * turn as u128 / TURNS as u128) as u64
    }

    fn row(&self, turn: usize) -> Vec<u16> {
        ordinary::row(&self.built, self.number(turn))
    }

    fn place(&self, turn: usize) -> u16 {
        1 + turn as u16 % self.head().arity
    }
}

fn count(asked: &mut Asked, _: usize, times: &mut Times) {
    let (head, table) = (asked.head(), &asked.built.records);
    let counted = times.of(LIBRARY, || tarnsatchel::count(&head, table, &mut asked.work));
    let ordinary = times.of(ORDINARY, || ordinary::count(&asked.built));
    let plain = times.of(OTHER, || plain::count(&head, table, &mut asked.other_work));
    assert!(counted == Ok(ordinary) && plain == Ok(ordinary), "the same count");
}

fn row(asked: &mut Asked, turn: usize, times: &mut Times) {
    let (head, table, number) = (asked.head(), &asked.built.records, asked.number(turn));
    let (mut first, mut second) = ([0; 4], [0; 4]);
    let told = times.of(LIBRARY, || tarnsatchel::row(&head, table, &mut asked.work, number, &mut first));
    let ordinary = times.of(ORDINARY, || ordinary::row(&asked.built, number));
    let plain = times.of(OTHER, || plain::row(&head, table, &mut asked.other_work, number, &mut second));
    assert!(told == Ok(()) && plain == Ok(()) && first == second && first.starts_with(&ordinary), "the same row");
}

/// In every other turn with two nodes exchanged, so that most of these are not listed.
fn member(asked: &mut Asked, turn: usize, times: &mut Times) {
    let mut row = asked.row(turn);
    if turn % 2 == 1 {
        row.swap(0, 1);
    }
    let (head, table) = (asked.head(), &asked.built.records);
    let listed = times.of(LIBRARY, || tarnsatchel::member(&head, table, &mut asked.work, &row));
    let ordinary = times.of(ORDINARY, || ordinary::member(&asked.built, &row));
    let plain = times.of(OTHER, || plain::member(&head, table, &mut asked.other_work, &row));
    assert!(listed == Ok(ordinary) && plain == Ok(ordinary), "the same membership");
}

fn project(asked: &mut Asked, turn: usize, times: &mut Times) {
    let (head, table, place) = (asked.head(), &asked.built.records, asked.place(turn));
    let (mut first, mut second) = (vec![0; head.nodes as usize], vec![0; head.nodes as usize]);
    let told = times.of(LIBRARY, || tarnsatchel::project(&head, table, &mut asked.work, place, &mut first));
    let ordinary = times.of(ORDINARY, || ordinary::project(&asked.built, place));
    let plain = times.of(OTHER, || plain::project(&head, table, &mut asked.other_work, place, &mut second));
    assert!(told == Ok(()) && plain == Ok(()) && first == second && first == ordinary, "the same marks");
}

fn fix(asked: &mut Asked, turn: usize, times: &mut Times) {
    let place = asked.place(turn);
    let node = asked.row(turn)[place as usize - 1];
    let (head, table) = (asked.head(), &asked.built.records);
    let (mut first, mut second) = (vec![Record::default(); table.len()], vec![Record::default(); table.len()]);
    let fixed = times.of(LIBRARY, || tarnsatchel::fix(&head, table, &mut asked.work, place, node, &mut first));
    let ordinary = times.of(ORDINARY, || ordinary::fix(&asked.built, place, node));
    let plain = times.of(OTHER, || plain::fix(&head, table, &mut asked.other_work, place, node, &mut second));
    assert!(fixed == Ok(ordinary.head) && plain == Ok(ordinary.head), "the same head");
    assert!(first == second && first.starts_with(&ordinary.records), "the same records");
}
