//! The benchmark's plain passes: ordinary Rust over the same record array that makes the library's checks in its order, answers into
//! lent buffers and clears the work. A refusal is its number.

use crate::ordinary::{descend, PRODUCT, SINGLE, UNION};
use tarnsatchel::{Head, Record, Set, BLANK};

const MOST_ROWS: u64 = 1 << 48;

/// Soundness, with the rows of each used record in the work.
fn weigh(head: &Head, table: &[Record], work: &mut [u64]) -> Result<(), u8> {
    let used = head.used as usize;
    if work.len() < used {
        return Err(5);
    }
    if is_sound(head, table, &mut work[..used]) {
        return Ok(());
    }
    work[..used].fill(0);
    Err(11)
}

fn is_sound(head: &Head, table: &[Record], counts: &mut [u64]) -> bool {
    let in_range = (1..=4095).contains(&head.nodes) && (1..=4).contains(&head.arity) && head.open_places < 1 << head.arity;
    if !in_range || counts.len() > 60_000 || counts.len() > table.len() {
        return false;
    }
    let table = &table[..counts.len()];
    for number in 0..table.len() {
        match rows_of(head, table, counts, number) {
            Some(rows) => counts[number] = rows,
            None => return false,
        }
    }
    match head.set {
        Set::Empty => true,
        Set::Unit => head.open_places == 0,
        Set::Record(root) => table.get(root as usize).is_some_and(|record| record.flag == head.open_places),
    }
}

/// Of one record; none where it is not sound.
#[inline(always)]
fn rows_of(head: &Head, table: &[Record], counts: &[u64], number: usize) -> Option<u64> {
    let Record { kind, node, left, right, flag } = table[number];
    if node >= head.nodes || flag == 0 || flag >= 1 << head.arity {
        return None;
    }
    if kind == SINGLE {
        return if left == 0 && right == 0 { Some(1) } else { None };
    }
    let (left, right) = (left as usize, right as usize);
    if left >= number || right >= number {
        return None;
    }
    let flags = (table[left].flag, table[right].flag);
    let rows = match kind {
        UNION if keeps(flags, flag) => counts[left] + counts[right],
        PRODUCT if adds(flags, flag) => counts[left].checked_mul(counts[right])?,
        _ => return None,
    };
    Some(rows).filter(|&rows| rows <= MOST_ROWS)
}

/// A product's places, the ones of its flag, are those of its operands together, and as many as both have.
fn adds((left, right): (u16, u16), flag: u16) -> bool {
    left | right == flag && left.count_ones() + right.count_ones() == flag.count_ones()
}

/// A union's are those of its operands together, and as many as each has.
fn keeps((left, right): (u16, u16), flag: u16) -> bool {
    let places = flag.count_ones();
    left | right == flag && left.count_ones() == places && right.count_ones() == places
}

fn count_of(head: &Head, work: &[u64]) -> u64 {
    match head.set {
        Set::Empty => 0,
        Set::Unit => 1,
        Set::Record(root) => work[root as usize],
    }
}

/// The used work cleared, whatever was answered.
fn cleared<A>(head: &Head, work: &mut [u64], answer: Result<A, u8>) -> Result<A, u8> {
    work[..head.used as usize].fill(0);
    answer
}

fn is_open(head: &Head, place: u16) -> bool {
    1 <= place && place <= head.arity && head.open_places >> (place - 1) & 1 == 1
}

#[inline(never)]
pub fn count(head: &Head, table: &[Record], work: &mut [u64]) -> Result<u64, u8> {
    weigh(head, table, work)?;
    let rows = count_of(head, work);
    cleared(head, work, Ok(rows))
}

#[inline(never)]
pub fn row(head: &Head, table: &[Record], work: &mut [u64], number: u64, row: &mut [u16]) -> Result<(), u8> {
    weigh(head, table, work)?;
    if number >= count_of(head, work) {
        return cleared(head, work, Err(9));
    }
    if row.len() < head.arity as usize {
        return cleared(head, work, Err(10));
    }
    row[..head.arity as usize].fill(BLANK);
    if let Set::Record(root) = head.set {
        descend(table, work, root, number, &mut row[..head.arity as usize]);
    }
    cleared(head, work, Ok(()))
}

#[inline(never)]
pub fn member(head: &Head, table: &[Record], work: &mut [u64], row: &[u16]) -> Result<bool, u8> {
    weigh(head, table, work)?;
    if row.len() != head.arity as usize {
        return cleared(head, work, Err(13));
    }
    let fits = |(place, &node): (usize, &u16)| if head.open_places >> place & 1 == 1 { node < head.nodes } else { node == BLANK };
    if !row.iter().enumerate().all(fits) {
        return cleared(head, work, Err(8));
    }
    for (number, record) in table[..head.used as usize].iter().enumerate() {
        let (left, right) = (record.left as usize, record.right as usize);
        work[number] = match record.kind {
            SINGLE => row.iter().enumerate().all(|(place, &node)| record.flag >> place & 1 == 0 || node == record.node) as u64,
            UNION => work[left] | work[right],
            _ => work[left] & work[right],
        };
    }
    let listed = count_of(head, work) == 1;
    cleared(head, work, Ok(listed))
}

#[inline(never)]
pub fn project(head: &Head, table: &[Record], work: &mut [u64], place: u16, marks: &mut [u8]) -> Result<(), u8> {
    weigh(head, table, work)?;
    if !is_open(head, place) {
        return cleared(head, work, Err(7));
    }
    if marks.len() < head.nodes as usize {
        return cleared(head, work, Err(10));
    }
    marks[..head.nodes as usize].fill(0);
    work[..head.used as usize].fill(0);
    if let Set::Record(root) = head.set {
        work[root as usize] = 1;
    }
    for (number, record) in table[..head.used as usize].iter().enumerate().rev() {
        if work[number] == 0 {
            continue;
        }
        if record.kind != SINGLE {
            work[record.left as usize] = 1;
            work[record.right as usize] = 1;
        } else if record.flag >> (place - 1) & 1 == 1 {
            marks[record.node as usize] = 1;
        }
    }
    cleared(head, work, Ok(()))
}

/// An image in the work: 0 empty, 1 unit, 2 and more a record of the target.
const UNIT: u64 = 1;

#[inline(never)]
pub fn fix(head: &Head, source: &[Record], work: &mut [u64], place: u16, node: u16, target: &mut [Record]) -> Result<Head, u8> {
    weigh(head, source, work)?;
    if !is_open(head, place) {
        return cleared(head, work, Err(7));
    }
    if node >= head.nodes {
        return cleared(head, work, Err(8));
    }
    if target.len() < head.used as usize {
        return cleared(head, work, Err(6));
    }
    let (bit, source) = (1 << (place - 1), &source[..head.used as usize]);
    let Some(made) = images(source, work, bit, node) else { return cleared(head, work, Err(12)) };
    write_images(source, work, bit, target);
    let set = match head.set {
        Set::Record(root) => set_of(work[root as usize]),
        other => other,
    };
    cleared(head, work, Ok(Head { open_places: head.open_places & !bit, used: made, set, ..*head }))
}

fn set_of(image: u64) -> Set {
    match image {
        0 => Set::Empty,
        UNIT => Set::Unit,
        _ => Set::Record((image - 2) as u16),
    }
}

/// How many records are made; none where unit would be united with unit. Nothing is written yet.
fn images(source: &[Record], work: &mut [u64], bit: u16, node: u16) -> Option<u16> {
    let mut made = 0;
    for (number, record) in source.iter().enumerate() {
        let (left, right) = (work[record.left as usize], work[record.right as usize]);
        let image = match record.kind {
            SINGLE if record.flag & bit != 0 && record.node != node => Some(0),
            SINGLE if record.flag == bit => Some(UNIT),
            SINGLE => None,
            UNION if left == UNIT && right == UNIT => return None,
            UNION if left == 0 => Some(right),
            UNION if right == 0 => Some(left),
            PRODUCT if left == 0 || right == 0 => Some(0),
            PRODUCT if left == UNIT => Some(right),
            PRODUCT if right == UNIT => Some(left),
            _ => None,
        };
        work[number] = image.unwrap_or_else(|| {
            made += 1;
            made as u64 + 1
        });
    }
    Some(made)
}

/// A record is written where its image is the next one.
fn write_images(source: &[Record], work: &[u64], bit: u16, target: &mut [Record]) {
    let mut made = 0;
    for (number, record) in source.iter().enumerate() {
        if work[number] != made + 2 {
            continue;
        }
        let operand = |old: u16| if record.kind == SINGLE { 0 } else { (work[old as usize] - 2) as u16 };
        let (left, right) = (operand(record.left), operand(record.right));
        target[made as usize] = Record { left, right, flag: record.flag & !bit, ..*record };
        made += 1;
    }
}
