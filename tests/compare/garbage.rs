//! What stands in the buffers before a call, so that what stays unchanged shows.

use crate::random::Random;
use records::Record;

/// Any numbers, small ones that could be sets, or all ones.
pub fn numbers(random: &mut Random, length: usize) -> Vec<u64> {
    let style = random.below(3);
    let number = |_| match style {
        0 => random.any(),
        1 => random.below(20) as u64,
        _ => u64::MAX,
    };
    (0..length).map(number).collect()
}

/// Any entries, entries that could be records, or all ones.
pub fn records(random: &mut Random, length: usize) -> Vec<Record> {
    let style = random.below(3);
    let entry = |_| match style {
        0 => any_entry(|| random.any() as u16),
        1 => any_entry(|| random.below(4) as u16),
        _ => any_entry(|| u16::MAX),
    };
    (0..length).map(entry).collect()
}

pub fn any_entry(mut number: impl FnMut() -> u16) -> Record {
    Record { kind: number(), node: number(), left: number(), right: number(), flag: number() }
}

pub fn shorts(random: &mut Random, length: usize) -> Vec<u16> {
    (0..length).map(|_| random.any() as u16).collect()
}

pub fn bytes(random: &mut Random, length: usize) -> Vec<u8> {
    (0..length).map(|_| random.byte()).collect()
}

pub fn head(random: &mut Random) -> [u16; 6] {
    [0; 6].map(|_: u16| random.any() as u16)
}

/// Farther than any, so that one which is not written never passes for the right one.
pub fn position(random: &mut Random) -> u64 {
    random.any() | 1 << 63
}
