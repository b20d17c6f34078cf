//! Tarnsatchel for Rust: the eight functions of include/tarnsatchel.h, which says what each answers and what it leaves in its buffers.
//! First the types, then a build, the five questions on a set, and text to tree and back, then the C functions behind them.
//!
//! A refusal is an error with its name. The buffers are the caller's: nothing is allocated, and none has to be cleared.

use std::error::Error;
use std::fmt;

/// One entry of the table; the default is the blank entry.
#[repr(C)]
#[derive(Clone, Copy, Debug, Default, PartialEq, Eq)]
pub struct Record {
    pub kind: u16,
    pub node: u16,
    pub left: u16,
    pub right: u16,
    pub flag: u16,
}

/// Of a set: nodes of the tree, arity, open places as a flag (place 1 is its lowest bit), records used, and the set itself.
#[derive(Clone, Copy, Debug, PartialEq, Eq)]
pub struct Head {
    pub nodes: u16,
    pub arity: u16,
    pub open_places: u16,
    pub used: u16,
    pub set: Set,
}

#[derive(Clone, Copy, Debug, PartialEq, Eq)]
pub enum Set {
    Empty,
    Unit,
    Record(u16),
}

/// Stands at a fixed place of a row.
pub const BLANK: u16 = 65_535;

/// No build asks for more work, and none makes more records.
pub const MOST_WORK: usize = 524_544;
pub const MOST_RECORDS: usize = 60_000;

/// The most written nodes of a bracketed text.
pub const MOST_WRITTEN: usize = 2_047;
/// Outputs of so many bytes are long enough for the records of any text, and for the text of any records.
pub const LONGEST_TREE: usize = 8_190;
pub const LONGEST_TEXT: usize = 8_188;

/// The numbers that say no. The first four are a build's, and have the byte position in its stream, from 0: the first byte of the record
/// at fault; where the tree ends with nothing or with several subtrees, the place where it ended; where the input ends before a head, its
/// length.
#[derive(Clone, Copy, Debug, PartialEq, Eq)]
pub enum Refusal {
    Tree(usize),
    ManyNodes(usize),
    Query(usize),
    Twice(usize),
    ShortWork,
    ShortTable,
    Place,
    Node,
    RowNumber,
    ShortOutput,
    NotSound,
    UnitTwice,
    RowLength,
    /// The programs', and no function's.
    LongInput,
    Text,
}

/// Builds the set of a stream. Refused 1 to 6.
pub fn build(input: &[u8], work: &mut [u64], table: &mut [Record]) -> Result<Head, Refusal> {
    let (mut head, mut position) = ([0; 6], 0);
    // SAFETY: here and below each pointer is that of a slice with its length or of a variable, what is written to is borrowed alone,
    // and the library touches nothing else.
    let refused = unsafe {
        let (work, table) = ((work.as_mut_ptr(), work.len()), (table.as_mut_ptr(), table.len()));
        c::tarn_build(input.as_ptr(), input.len(), work.0, work.1, table.0, table.1, &mut head, &mut position)
    };
    unless_refused_at(position, refused, Head::of_numbers(head))
}

/// Counts the rows. Refused 5, 11.
pub fn count(head: &Head, table: &[Record], work: &mut [u64]) -> Result<u64, Refusal> {
    let mut rows = 0;
    let refused = unsafe { c::tarn_count(&head.numbers(), table.as_ptr(), table.len(), work.as_mut_ptr(), work.len(), &mut rows) };
    unless_refused(refused, rows)
}

/// Writes the row of a number, from 0. Refused 5, 11, 9, 10.
pub fn row(head: &Head, table: &[Record], work: &mut [u64], number: u64, row: &mut [u16]) -> Result<(), Refusal> {
    let (head, row) = (head.numbers(), (row.as_mut_ptr(), row.len()));
    let refused = unsafe { c::tarn_row(&head, table.as_ptr(), table.len(), work.as_mut_ptr(), work.len(), number, row.0, row.1) };
    unless_refused(refused, ())
}

/// Tells whether a row is listed. Refused 5, 11, 13, 8.
pub fn member(head: &Head, table: &[Record], work: &mut [u64], row: &[u16]) -> Result<bool, Refusal> {
    let (head, row, mut listed) = (head.numbers(), (row.as_ptr(), row.len()), 0);
    let refused =
        unsafe { c::tarn_member(&head, table.as_ptr(), table.len(), work.as_mut_ptr(), work.len(), row.0, row.1, &mut listed) };
    unless_refused(refused, listed == 1)
}

/// Marks the nodes that stand at a place. Refused 5, 11, 7, 10.
pub fn project(head: &Head, table: &[Record], work: &mut [u64], place: u16, marks: &mut [u8]) -> Result<(), Refusal> {
    let (head, marks) = (head.numbers(), (marks.as_mut_ptr(), marks.len()));
    let refused =
        unsafe { c::tarn_project(&head, table.as_ptr(), table.len(), work.as_mut_ptr(), work.len(), place, marks.0, marks.1) };
    unless_refused(refused, ())
}

/// Fixes a place at a node, into a second table. Refused 5, 11, 7, 8, 6, 12.
pub fn fix(
    head: &Head,
    source: &[Record],
    work: &mut [u64],
    place: u16,
    node: u16,
    target: &mut [Record],
) -> Result<Head, Refusal> {
    let mut fixed = [0; 6];
    let refused = unsafe {
        let (work, target) = ((work.as_mut_ptr(), work.len()), (target.as_mut_ptr(), target.len()));
        let (head, source) = (head.numbers(), (source.as_ptr(), source.len()));
        c::tarn_fix(&head, source.0, source.1, work.0, work.1, place, node, target.0, target.1, &mut fixed)
    };
    unless_refused(refused, Head::of_numbers(fixed))
}

/// Makes tree records of bracketed text: `tree[..bytes]`, for the number it gives. Refused 15, 10.
pub fn text_to_tree(text: &[u8], tree: &mut [u8]) -> Result<usize, Refusal> {
    let mut bytes = 0;
    let refused = unsafe { c::tarn_text_to_tree(text.as_ptr(), text.len(), tree.as_mut_ptr(), tree.len(), &mut bytes) };
    unless_refused(refused, bytes)
}

/// Writes the canonical text of tree records that are the image of a written tree: `text[..bytes]`, all of it ASCII, for the number it
/// gives. Refused 15, 10.
pub fn tree_to_text(tree: &[u8], text: &mut [u8]) -> Result<usize, Refusal> {
    let mut bytes = 0;
    let refused = unsafe { c::tarn_tree_to_text(tree.as_ptr(), tree.len(), text.as_mut_ptr(), text.len(), &mut bytes) };
    unless_refused(refused, bytes)
}

impl Head {
    fn numbers(&self) -> [u16; 6] {
        let (set, record) = match self.set {
            Set::Empty => (0, 0),
            Set::Unit => (1, 0),
            Set::Record(record) => (2, record),
        };
        [self.nodes, self.arity, self.open_places, self.used, set, record]
    }

    fn of_numbers([nodes, arity, open_places, used, set, record]: [u16; 6]) -> Head {
        let set = match set {
            0 => Set::Empty,
            1 => Set::Unit,
            _ => Set::Record(record),
        };
        Head { nodes, arity, open_places, used, set }
    }
}

/// Of a call that is no build, and so never refused with a position.
fn unless_refused<A>(number: u8, answer: A) -> Result<A, Refusal> {
    unless_refused_at(0, number, answer)
}

fn unless_refused_at<A>(position: usize, number: u8, answer: A) -> Result<A, Refusal> {
    match number {
        0 => Ok(answer),
        _ => Err(refusal(number, position)),
    }
}

/// The refusal whose own `number()` this is. The library returns no number but 0 and these.
fn refusal(number: u8, position: usize) -> Refusal {
    all_refusals(position).into_iter().find(|refusal| refusal.number() == number).expect("a number from 1 to 15")
}

fn all_refusals(position: usize) -> [Refusal; 15] {
    [
        Refusal::Tree(position),
        Refusal::ManyNodes(position),
        Refusal::Query(position),
        Refusal::Twice(position),
        Refusal::ShortWork,
        Refusal::ShortTable,
        Refusal::Place,
        Refusal::Node,
        Refusal::RowNumber,
        Refusal::ShortOutput,
        Refusal::NotSound,
        Refusal::UnitTwice,
        Refusal::RowLength,
        Refusal::LongInput,
        Refusal::Text,
    ]
}

impl Refusal {
    pub fn number(self) -> u8 {
        match self {
            Refusal::Tree(_) => 1,
            Refusal::ManyNodes(_) => 2,
            Refusal::Query(_) => 3,
            Refusal::Twice(_) => 4,
            Refusal::ShortWork => 5,
            Refusal::ShortTable => 6,
            Refusal::Place => 7,
            Refusal::Node => 8,
            Refusal::RowNumber => 9,
            Refusal::ShortOutput => 10,
            Refusal::NotSound => 11,
            Refusal::UnitTwice => 12,
            Refusal::RowLength => 13,
            Refusal::LongInput => 14,
            Refusal::Text => 15,
        }
    }

    /// Where the stream is wrong; none where the refusal is not of its bytes.
    pub fn position(self) -> Option<usize> {
        match self {
            Refusal::Tree(position) | Refusal::ManyNodes(position) | Refusal::Query(position) | Refusal::Twice(position) => {
                Some(position)
            }
            _ => None,
        }
    }
}

/// As the listing program says it: `refused 3 at 40`, or `refused 5`.
impl fmt::Display for Refusal {
    fn fmt(&self, f: &mut fmt::Formatter) -> fmt::Result {
        write!(f, "refused {}", self.number())?;
        match self.position() {
            Some(position) => write!(f, " at {position}"),
            None => Ok(()),
        }
    }
}

impl Error for Refusal {}

mod c {
    use super::Record;

    extern "C" {
        pub fn tarn_build(
            input: *const u8,
            input_length: usize,
            work: *mut u64,
            work_length: usize,
            table: *mut Record,
            table_length: usize,
            head: &mut [u16; 6],
            position: &mut usize,
        ) -> u8;
        pub fn tarn_count(
            head: &[u16; 6],
            table: *const Record,
            table_length: usize,
            work: *mut u64,
            work_length: usize,
            rows: &mut u64,
        ) -> u8;
        pub fn tarn_row(
            head: &[u16; 6],
            table: *const Record,
            table_length: usize,
            work: *mut u64,
            work_length: usize,
            number: u64,
            row: *mut u16,
            row_length: usize,
        ) -> u8;
        pub fn tarn_member(
            head: &[u16; 6],
            table: *const Record,
            table_length: usize,
            work: *mut u64,
            work_length: usize,
            row: *const u16,
            row_length: usize,
            listed: &mut u8,
        ) -> u8;
        pub fn tarn_project(
            head: &[u16; 6],
            table: *const Record,
            table_length: usize,
            work: *mut u64,
            work_length: usize,
            place: u16,
            marks: *mut u8,
            marks_length: usize,
        ) -> u8;
        pub fn tarn_fix(
            head: &[u16; 6],
            source: *const Record,
            source_length: usize,
            work: *mut u64,
            work_length: usize,
            place: u16,
            node: u16,
            target: *mut Record,
            target_length: usize,
            fixed: &mut [u16; 6],
        ) -> u8;
        pub fn tarn_text_to_tree(text: *const u8, text_length: usize, tree: *mut u8, tree_length: usize, bytes: &mut usize) -> u8;
        pub fn tarn_tree_to_text(tree: *const u8, tree_length: usize, text: *mut u8, text_length: usize, bytes: &mut usize) -> u8;
    }
}
