//! Times build and count of the real streams of tests/fortran: the sum over all of them, and the largest.

use crate::builds::{built, time_build_and_count, Buffers};
use crate::ordinary;
use crate::times::{print_line, Medians};
use fortran::Pair;

struct Timed {
    pair: Pair,
    records: usize,
    medians: Medians,
}

pub fn time_all(buffers: &mut Buffers) {
    let timed: Vec<Timed> = fortran::pairs().into_iter().map(|pair| time(pair, buffers)).collect();
    print_line(&format!("all {} real streams, the sum", timed.len()), "build and count", sum(&timed));
    let largest = timed.iter().max_by_key(|timed| timed.records).expect("real streams");
    let name = format!("largest: {}, {} records", largest.pair.name, largest.records);
    print_line(&name, "build and count", largest.medians);
}

fn time(pair: Pair, buffers: &mut Buffers) -> Timed {
    let built = built(&pair.input, buffers);
    assert_eq!(ordinary::count(&built), pair.rows, "{} and rows.txt", pair.name);
    Timed { records: built.records.len(), medians: time_build_and_count(&pair.input, buffers), pair }
}

/// Of the medians.
fn sum(timed: &[Timed]) -> Medians {
    [0, 1, 2].map(|which| timed.iter().map(|timed| timed.medians[which]).sum())
}
