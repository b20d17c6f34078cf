//! Damages streams: a byte changed, cut, dropped or put in, and the same with whole records.

use crate::byte_damage::{self, ByteDamage};
use crate::random::Random;
use crate::streams::{Stream, ACCEPTING, BRANCH, BRANCH_RULE, HEAD, LEAF, LEAF_RULE};

pub type Damage = fn(&mut Random, &Stream) -> Vec<u8>;

/// A kind, a number near a limit, or any byte.
fn any_byte(random: &mut Random) -> u8 {
    match random.below(3) {
        0 => random.pick(&[LEAF, BRANCH, HEAD, LEAF_RULE, BRANCH_RULE, ACCEPTING]),
        1 => random.pick(&[0, 1, 2, 3, 4, 5, 7, 8, 15, 16, 17, 63, 64, 255]),
        _ => random.byte(),
    }
}

fn bytes_damaged(random: &mut Random, stream: &Stream, damage: ByteDamage) -> Vec<u8> {
    let mut bytes = stream.bytes();
    damage(random, &mut bytes, any_byte);
    bytes
}

pub fn byte_changed(random: &mut Random, stream: &Stream) -> Vec<u8> {
    bytes_damaged(random, stream, byte_damage::changed)
}

pub fn cut(random: &mut Random, stream: &Stream) -> Vec<u8> {
    bytes_damaged(random, stream, byte_damage::cut)
}

pub fn byte_dropped(random: &mut Random, stream: &Stream) -> Vec<u8> {
    bytes_damaged(random, stream, byte_damage::dropped)
}

pub fn byte_put_in(random: &mut Random, stream: &Stream) -> Vec<u8> {
    bytes_damaged(random, stream, byte_damage::put_in)
}

/// A record dropped, said again, said again with another last number, or exchanged with another.
pub fn record_moved(random: &mut Random, stream: &Stream) -> Vec<u8> {
    let mut records = stream.records();
    let (from, to) = (random.below(records.len()), random.below(records.len()));
    match random.below(5) {
        0 => drop(records.remove(from)),
        1 => records.insert(to, records[from].clone()),
        2 => records.swap(from, to),
        _ => say_again(random, stream, &mut records),
    }
    records.concat()
}

/// A record of the query once more, somewhere behind it, perhaps with another state: a left side or a state said twice.
fn say_again(random: &mut Random, stream: &Stream, records: &mut Vec<Vec<u8>>) {
    let from = random.between(stream.tree.len(), records.len() - 1);
    let mut again = records[from].clone();
    if again[0] != ACCEPTING && random.chance(50) {
        *again.last_mut().expect("a body") = 0;
    }
    records.insert(random.between(from + 1, records.len()), again);
}

/// Any of the above.
pub fn any_damage(random: &mut Random, stream: &Stream) -> Vec<u8> {
    let damage = random.pick(&[byte_changed as Damage, cut, byte_dropped, byte_put_in, record_moved]);
    damage(random, stream)
}

/// No stream at all, but bytes that often are kinds.
pub fn any_bytes(random: &mut Random) -> Vec<u8> {
    (0..random.below(40)).map(|_| any_byte(random)).collect()
}
