//! Damages sets: the head, one record, or all of it. A damaged set may still be sound.

use crate::garbage;
use crate::making::Making;
use crate::random::Random;
use crate::sets::{WholeSet, ARITY, NODES, OPEN_PLACES, RECORD, SET, USED};
use records::Record;

/// Numbers at which something ends.
const EDGES: [u16; 22] =
    [0, 1, 2, 3, 4, 5, 7, 8, 15, 16, 17, 255, 256, 4094, 4095, 4096, 32767, 32768, 59_999, 60_000, 60_001, 65_535];

fn near(random: &mut Random, number: u16) -> u16 {
    match random.below(4) {
        0 => number.wrapping_add(1),
        1 => number.wrapping_sub(1),
        2 => random.pick(&EDGES),
        _ => random.any() as u16,
    }
}

/// All six numbers, small ones that may fit or any.
pub fn any_head(random: &mut Random, set: &mut WholeSet) {
    let used = random.between(0, set.table.len() + 1);
    let fits = [random.below(7), random.below(6), random.below(17), used, random.below(4), random.below(used + 1)];
    for (number, fit) in set.head.iter_mut().zip(fits) {
        *number = if random.chance(85) { fit as u16 } else { near(random, fit as u16) };
    }
}

pub fn head_changed(random: &mut Random, set: &mut WholeSet) {
    let at = random.pick(&[NODES, ARITY, OPEN_PLACES, USED, RECORD]);
    set.head[at] = near(random, set.head[at]);
}

/// Kinds 0 to 3 and beyond, with any record; the open places stay or are closed.
pub fn set_changed(random: &mut Random, set: &mut WholeSet) {
    set.head[SET] = random.pick(&[0, 1, 2, 3, 3, 4, 255, 256, 257, 258, 65_535]);
    set.head[RECORD] = random.pick(&[set.head[RECORD], 0, set.head[USED].wrapping_sub(1), set.head[USED], 65_535]);
    if random.chance(50) {
        set.head[OPEN_PLACES] = 0;
    }
}

/// The table is shorter than the head says, or the head says more than the table has.
pub fn used_beyond(random: &mut Random, set: &mut WholeSet) {
    if random.chance(50) {
        set.table.truncate((set.head[USED] as usize).saturating_sub(random.between(1, 3)));
    } else {
        let length = set.table.len() as u16;
        set.head[USED] = random.pick(&[length + 1, length + 2, 60_000, 60_001, 65_535]);
    }
}

fn any_used(random: &mut Random, set: &WholeSet) -> Option<usize> {
    let used = (set.head[USED] as usize).min(set.table.len());
    if used == 0 {
        return None;
    }
    Some(random.below(used))
}

pub fn record_changed(random: &mut Random, set: &mut WholeSet) {
    let at = match any_used(random, set) {
        Some(at) => at,
        None => return,
    };
    let Record { kind, node, left, right, flag } = set.table[at];
    let mut fields = [kind, node, left, right, flag];
    let field = &mut fields[random.below(5)];
    *field = if random.chance(40) { random.below(5) as u16 } else { near(random, *field) };
    let [kind, node, left, right, flag] = fields;
    set.table[at] = Record { kind, node, left, right, flag };
}

/// An operand that is the record itself, or one behind it that has it as operand.
pub fn cycle(random: &mut Random, set: &mut WholeSet) {
    let at = match any_used(random, set) {
        Some(at) => at,
        None => return,
    };
    let behind = random.between(at, set.head[USED] as usize - 1);
    let kind = random.pick(&[2, 3]);
    let (near, far) = (at as u16, behind as u16);
    set.table[at] = Record { kind, left: far, right: far, ..set.table[at] };
    if random.chance(50) {
        set.table[behind] = Record { kind: 2, left: near, right: near, ..set.table[behind] };
    }
}

pub fn flag_out_of_range(random: &mut Random, set: &mut WholeSet) {
    let at = match any_used(random, set) {
        Some(at) => at,
        None => return,
    };
    let end = 1 << set.head[ARITY];
    let flag = set.table[at].flag;
    set.table[at].flag = random.pick(&[0, end, end | flag, 16 | flag, 256 | flag, 32_768 | flag, 65_535]);
}

/// Two records exchanged, so that operands may stand behind.
pub fn records_exchanged(random: &mut Random, set: &mut WholeSet) {
    if let (Some(one), Some(other)) = (any_used(random, set), any_used(random, set)) {
        set.table.swap(one, other);
    }
}

/// Records of small numbers, mostly with operands before them; a few of these sets are sound.
pub fn any_records(random: &mut Random, set: &mut WholeSet) {
    let length = random.between(1, 6);
    set.table = (0..length).map(|_| garbage::any_entry(|| random.below(4) as u16)).collect();
    for (number, record) in set.table.iter_mut().enumerate().filter(|_| random.chance(90)) {
        let before = number.clamp(1, 3) as u16;
        (record.left, record.right) = (record.left % before, record.right % before);
        if record.kind == 1 || number == 0 {
            *record = Record { kind: 1, left: 0, right: 0, ..*record };
        }
    }
    let root = random.below(length);
    set.head = [4, 2, set.table[root].flag, length as u16, 2, root as u16];
}

/// Unions and products of large sets, so that counts come near the limit and go beyond it.
pub fn large_counts(random: &mut Random, set: &mut WholeSet) {
    let arity = random.between(2, 4) as u16;
    let mut making = Making::default();
    let mut records: Vec<u16> = Vec::new();
    for place in 0..arity {
        let count = (random.any() as u128 % (1 << random.between(8, 26))).max(1) + random.below(2) as u128;
        records.push(making.counting(count, place, 1 << place));
    }
    for _ in 0..random.between(2, 14) {
        let (left, right) = (random.pick(&records), random.pick(&records));
        let (a, b) = (making.table[left as usize].flag, making.table[right as usize].flag);
        if a == b {
            records.push(making.union(left, right));
        } else if a & b == 0 {
            records.push(making.product(left, right));
        }
    }
    *set = making.set(5, arity, records[records.len() - 1]);
}
