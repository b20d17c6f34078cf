//! 'Records': a set's head and table, when a set is sound, and the rows that it lists.

/// What stands at a blank place.
pub const BLANK: u16 = 65535;

pub const SINGLE: u16 = 1;
pub const UNION: u16 = 2;
pub const PRODUCT: u16 = 3;

const MOST_NODES: u16 = 4095;
pub const MOST_RECORDS: usize = 60_000;
const MOST_ROWS: u128 = 281_474_976_710_656;

/// One entry of the table; the default is the blank entry.
#[derive(Clone, Copy, Debug, Default, PartialEq)]
pub struct Record {
    pub kind: u16,
    pub node: u16,
    pub left: u16,
    pub right: u16,
    pub flag: u16,
}

#[derive(Clone, Copy, Debug, PartialEq)]
pub enum Set {
    Empty,
    Unit,
    At(u16),
}

/// `open_places` is a flag.
#[derive(Clone, Copy, Debug, PartialEq)]
pub struct Head {
    pub nodes: u16,
    pub arity: u16,
    pub open_places: u16,
    pub used: u16,
    pub set: Set,
}

pub type Row = Vec<u16>;

impl Record {
    pub fn single(node: u16, flag: u16) -> Record {
        Record { kind: SINGLE, node, left: 0, right: 0, flag }
    }

    /// The operands' numbers.
    pub fn operands(&self) -> (usize, usize) {
        (self.left as usize, self.right as usize)
    }
}

/// Whether a set is sound, by the paper's clauses in its order.
pub fn is_sound(head: &Head, table: &[Record]) -> bool {
    head_is_sound(head, table.len()) && counts(head, table).is_some() && root_is_sound(head, table)
}

fn head_is_sound(head: &Head, length: usize) -> bool {
    (1..=MOST_NODES).contains(&head.nodes)
        && (1..=4).contains(&head.arity)
        && head.open_places < 1 << head.arity
        && head.used as usize <= MOST_RECORDS.min(length)
}

/// How many rows each used record lists; none where one of them is not sound. The head's numbers are sound.
fn counts(head: &Head, table: &[Record]) -> Option<Vec<u128>> {
    let mut counts: Vec<u128> = Vec::new();
    for record in &table[..head.used as usize] {
        if !record_is_sound(head, &table[..counts.len()], record) {
            return None;
        }
        let (left, right) = record.operands();
        let count = match record.kind {
            SINGLE => 1,
            UNION => counts[left] + counts[right],
            _ => counts[left] * counts[right],
        };
        if count > MOST_ROWS {
            return None;
        }
        counts.push(count);
    }
    Some(counts)
}

/// `before` holds the records with lower numbers.
fn record_is_sound(head: &Head, before: &[Record], record: &Record) -> bool {
    let in_range = record.node < head.nodes && 0 < record.flag && record.flag < 1 << head.arity;
    in_range && (record.kind == SINGLE && record.operands() == (0, 0) || operands_are_sound(before, record))
}

fn operands_are_sound(before: &[Record], record: &Record) -> bool {
    let (left, right) = record.operands();
    if left >= before.len() || right >= before.len() {
        return false;
    }
    let (left, right) = (before[left].flag, before[right].flag);
    match record.kind {
        UNION => left == record.flag && right == record.flag,
        PRODUCT => left & right == 0 && left | right == record.flag,
        _ => false,
    }
}

fn root_is_sound(head: &Head, table: &[Record]) -> bool {
    match head.set {
        Set::Empty => true,
        Set::Unit => head.open_places == 0,
        Set::At(root) => root < head.used && table[root as usize].flag == head.open_places,
    }
}

/// How many rows a sound set lists.
pub fn count_of(head: &Head, table: &[Record]) -> u128 {
    match head.set {
        Set::Empty => 0,
        Set::Unit => 1,
        Set::At(root) => counts(head, table).expect("a sound set")[root as usize],
    }
}

/// All rows of a sound set, listed plainly, in order; none where there are more than `most`.
pub fn rows_of(head: &Head, table: &[Record], most: usize) -> Option<Vec<Row>> {
    if count_of(head, table) > most as u128 {
        return None;
    }
    let mut rows = Vec::new();
    match head.set {
        Set::Empty => (),
        Set::Unit => rows.push(blanks(head)),
        Set::At(root) => list(head, table, root as usize, &mut rows),
    }
    Some(rows)
}

fn blanks(head: &Head) -> Row {
    vec![BLANK; head.arity as usize]
}

/// Adds a record's rows. Unions wait in a list and not on the stack, since they nest as deep as there are records;
/// products nest at most three deep, since each factor fills fewer places.
fn list(head: &Head, table: &[Record], record: usize, rows: &mut Vec<Row>) {
    let mut waiting = vec![record];
    while let Some(number) = waiting.pop() {
        let (left, right) = table[number].operands();
        match table[number].kind {
            SINGLE => rows.push(single_row(head, &table[number])),
            UNION => waiting.extend([right, left]),
            _ => list_product(head, table, left, right, rows),
        }
    }
}

/// For each left row in order, every right row in order.
fn list_product(head: &Head, table: &[Record], left: usize, right: usize, rows: &mut Vec<Row>) {
    let (mut lefts, mut rights) = (Vec::new(), Vec::new());
    list(head, table, left, &mut lefts);
    list(head, table, right, &mut rights);
    for left in &lefts {
        rows.extend(rights.iter().map(|right| merged(left, right)));
    }
}

/// The node at each place of the flag.
fn single_row(head: &Head, record: &Record) -> Row {
    (0..head.arity).map(|place| if record.flag >> place & 1 == 1 { record.node } else { BLANK }).collect()
}

/// The rows fill different places.
fn merged(left: &Row, right: &Row) -> Row {
    left.iter().zip(right).map(|(&l, &r)| if l == BLANK { r } else { l }).collect()
}

/// Row `number` of a sound set that lists more, found by counts and not by listing.
pub fn row_numbered(head: &Head, table: &[Record], number: u128) -> Row {
    let mut row = blanks(head);
    if let Set::At(root) = head.set {
        let counts = counts(head, table).expect("a sound set");
        write_row(table, &counts, root as usize, number, &mut row);
    }
    row
}

fn write_row(table: &[Record], counts: &[u128], record: usize, number: u128, row: &mut Row) {
    let (mut record, mut number) = (record, number);
    while table[record].kind == UNION {
        let (left, right) = table[record].operands();
        if number < counts[left] {
            record = left;
        } else {
            number -= counts[left];
            record = right;
        }
    }
    let (left, right) = table[record].operands();
    if table[record].kind == PRODUCT {
        write_row(table, counts, left, number / counts[right], row);
        write_row(table, counts, right, number % counts[right], row);
        return;
    }
    for (place, entry) in row.iter_mut().enumerate() {
        if table[record].flag >> place & 1 == 1 {
            *entry = table[record].node;
        }
    }
}

/// Whether a sound set lists the row, which is blank at its fixed places: each record in order says whether it lists the row's part.
pub fn lists_row(head: &Head, table: &[Record], row: &[u16]) -> bool {
    let root = match head.set {
        Set::Empty => return false,
        Set::Unit => return true,
        Set::At(root) => root as usize,
    };
    let mut listed: Vec<bool> = Vec::new();
    for record in &table[..=root] {
        let (left, right) = record.operands();
        listed.push(match record.kind {
            SINGLE => row.iter().enumerate().all(|(place, &node)| record.flag >> place & 1 == 0 || node == record.node),
            UNION => listed[left] || listed[right],
            _ => listed[left] && listed[right],
        });
    }
    listed[root]
}

/// For each node whether it stands at the place, from 0, in some row of a sound set: every record lists a row, so a single under the
/// root with the place is in one. Records that are not under the root say nothing.
pub fn nodes_at(head: &Head, table: &[Record], place: u16) -> Vec<u8> {
    let mut marks = vec![0; head.nodes as usize];
    let mut under_root = vec![false; head.used as usize];
    if let Set::At(root) = head.set {
        under_root[root as usize] = true;
    }
    // operands have lower numbers
    for number in (0..under_root.len()).rev() {
        if !under_root[number] {
            continue;
        }
        let record = &table[number];
        let (left, right) = record.operands();
        if record.kind != SINGLE {
            under_root[left] = true;
            under_root[right] = true;
        } else if record.flag >> place & 1 == 1 {
            marks[record.node as usize] = 1;
        }
    }
    marks
}
