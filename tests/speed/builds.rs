//! Times builds: the library, the ordinary program, and the ordinary program without its check for rules said twice.

use crate::ordinary::{self, Built};
use crate::times::{Medians, Times, LIBRARY, ORDINARY, OTHER};
use std::hint::black_box;
use tarnsatchel::{Head, Record, Refusal, MOST_RECORDS, MOST_WORK};

/// How often each build is timed.
pub const BUILD_TURNS: usize = 101;

/// The library's buffers, as long as they may be asked for.
pub struct Buffers {
    work: Vec<u64>,
    table: Vec<Record>,
}

impl Buffers {
    pub fn new() -> Buffers {
        Buffers { work: vec![0; MOST_WORK], table: vec![Record::default(); MOST_RECORDS] }
    }

    fn build(&mut self, input: &[u8]) -> Result<Head, Refusal> {
        tarnsatchel::build(black_box(input), &mut self.work, &mut self.table)
    }

    fn build_and_count(&mut self, input: &[u8]) -> Result<u64, Refusal> {
        let head = self.build(input)?;
        tarnsatchel::count(&head, &self.table, &mut self.work)
    }

    fn agrees(&self, head: Head, built: &Built) -> bool {
        head == built.head && self.table[..head.used as usize] == built.records
    }
}

/// By the ordinary program, which the library and the unchecked one must agree with.
pub fn built(input: &[u8], buffers: &mut Buffers) -> Built {
    let built = ordinary::build(input).expect("no rule said twice");
    let head = buffers.build(input).expect("a set");
    assert!(buffers.agrees(head, &built) && ordinary::build_unchecked(input) == built, "the same records");
    built
}

/// What the ordinary program makes is freed inside its time, since its caller would have to free it too: so each turn can have the
/// memory of the turn before again.
pub fn time_build(input: &[u8], buffers: &mut Buffers) -> Medians {
    let mut times = Times::of_turns();
    for _ in 0..BUILD_TURNS {
        let head = times.of(LIBRARY, || buffers.build(input));
        let ordinary = times.of(ORDINARY, || black_box(ordinary::build(black_box(input))).map(|built| built.head));
        let unchecked = times.of(OTHER, || black_box(ordinary::build_unchecked(black_box(input))).head);
        assert!(head.ok() == ordinary && ordinary == Some(unchecked), "the same head");
    }
    times.medians()
}

pub fn time_build_and_count(input: &[u8], buffers: &mut Buffers) -> Medians {
    let mut times = Times::of_turns();
    for _ in 0..BUILD_TURNS {
        let counted = times.of(LIBRARY, || buffers.build_and_count(input));
        let ordinary = times.of(ORDINARY, || ordinary::build(black_box(input)).map(|built| ordinary::count(&built)));
        let unchecked = times.of(OTHER, || ordinary::count(&ordinary::build_unchecked(black_box(input))));
        assert!(counted.ok() == ordinary && ordinary == Some(unchecked), "the same count");
    }
    times.medians()
}

/// What is timed as a check is one: both refuse a stream for a rule that it says again, and the other does not see it.
pub fn hold_to_the_check(said_twice: &[u8], buffers: &mut Buffers) {
    // wherever: so an archive of before request 2026-04, which tells no position, can be timed too
    assert!(matches!(buffers.build(said_twice), Err(Refusal::Twice(_))), "refused by the library");
    assert_eq!(ordinary::build(said_twice), None, "refused by the ordinary program");
    assert_ne!(ordinary::build_unchecked(said_twice).records.len(), 0, "built without the check");
}

/// What the rules would mark and may not is passed over by all three: the stream has one row.
pub fn hold_to_the_pads(one_row: &[u8], buffers: &mut Buffers) {
    assert_eq!(ordinary::count(&built(one_row, buffers)), 1, "no row that names a pad");
}
