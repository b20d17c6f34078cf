//! One call of the library: its numbers, what is lent to it, and what it leaves behind; and all of it as the driver's bytes, whose
//! format stands in driver/driver.c.

use crate::verdict::{same, same_entries, Verdict};
use records::Record;

#[derive(Clone, Copy, Debug, PartialEq)]
pub enum Function {
    Build = 1,
    Count,
    Row,
    Member,
    Project,
    Fix,
    TextToTree,
    TreeToText,
}

#[derive(Clone, Debug, PartialEq)]
pub enum Buffer {
    Bytes(Vec<u8>),
    Shorts(Vec<u16>),
    Numbers(Vec<u64>),
    Records(Vec<Record>),
}

/// The buffers, with their names, are the function's pointers in their order, out parameters too.
#[derive(Debug)]
pub struct Call {
    pub function: Function,
    pub numbers: [u64; 2],
    pub lent: Vec<(&'static str, Buffer)>,
}

/// The answer is 0 or the refusal's number.
#[derive(Debug)]
pub struct Left {
    pub answer: u8,
    pub lent: Vec<Buffer>,
}

impl Left {
    /// Everything that the call left, with what it must be.
    pub fn is(&self, call: &Call, expected: &Left) -> Verdict {
        same("answer", self.answer, expected.answer)?;
        for ((name, _), (got, expected)) in call.lent.iter().zip(self.lent.iter().zip(&expected.lent)) {
            match (got, expected) {
                (Buffer::Bytes(got), Buffer::Bytes(expected)) => same_entries(name, got, expected)?,
                (Buffer::Shorts(got), Buffer::Shorts(expected)) => same_entries(name, got, expected)?,
                (Buffer::Numbers(got), Buffer::Numbers(expected)) => same_entries(name, got, expected)?,
                (Buffer::Records(got), Buffer::Records(expected)) => same_entries(name, got, expected)?,
                _ => same(name, got, expected)?,
            }
        }
        Ok(())
    }
}

impl Buffer {
    pub fn len(&self) -> usize {
        match self {
            Buffer::Bytes(entries) => entries.len(),
            Buffer::Shorts(entries) => entries.len(),
            Buffer::Numbers(entries) => entries.len(),
            Buffer::Records(entries) => entries.len(),
        }
    }

    pub fn bytes(&self) -> &[u8] {
        match self {
            Buffer::Bytes(entries) => entries,
            _ => panic!("no bytes"),
        }
    }

    pub fn shorts(&self) -> &[u16] {
        match self {
            Buffer::Shorts(entries) => entries,
            _ => panic!("no shorts"),
        }
    }

    pub fn numbers(&self) -> &[u64] {
        match self {
            Buffer::Numbers(entries) => entries,
            _ => panic!("no numbers"),
        }
    }

    pub fn records(&self) -> &[Record] {
        match self {
            Buffer::Records(entries) => entries,
            _ => panic!("no records"),
        }
    }

    fn to_driver(&self) -> Vec<u8> {
        match self {
            Buffer::Bytes(entries) => entries.clone(),
            Buffer::Shorts(entries) => entries.iter().flat_map(|entry| entry.to_le_bytes()).collect(),
            Buffer::Numbers(entries) => entries.iter().flat_map(|entry| entry.to_le_bytes()).collect(),
            Buffer::Records(entries) => entries.iter().flat_map(fields).flat_map(u16::to_le_bytes).collect(),
        }
    }

    /// A buffer of this kind and length from the driver's bytes; none where they are cut.
    fn from_driver(&self, bytes: &mut &[u8]) -> Option<Buffer> {
        let mut take = |size: usize| {
            let end = size * self.len();
            let (taken, rest) = (bytes.get(..end)?, &bytes[end..]);
            *bytes = rest;
            Some(taken.chunks_exact(size))
        };
        Some(match self {
            Buffer::Bytes(_) => Buffer::Bytes(take(1)?.map(|b| b[0]).collect()),
            Buffer::Shorts(_) => Buffer::Shorts(take(2)?.map(short).collect()),
            Buffer::Numbers(_) => Buffer::Numbers(take(8)?.map(|b| u64::from_le_bytes(b.try_into().unwrap())).collect()),
            Buffer::Records(_) => Buffer::Records(take(10)?.map(record).collect()),
        })
    }
}

fn fields(record: &Record) -> [u16; 5] {
    [record.kind, record.node, record.left, record.right, record.flag]
}

fn short(bytes: &[u8]) -> u16 {
    u16::from_le_bytes([bytes[0], bytes[1]])
}

fn record(bytes: &[u8]) -> Record {
    let field = |number: usize| short(&bytes[2 * number..]);
    Record { kind: field(0), node: field(1), left: field(2), right: field(3), flag: field(4) }
}

impl Call {
    pub fn to_driver(&self) -> Vec<u8> {
        let mut bytes = vec![self.function as u8];
        bytes.extend(self.numbers.iter().flat_map(|number| number.to_le_bytes()));
        for (_, buffer) in &self.lent {
            bytes.extend((buffer.len() as u32).to_le_bytes());
            bytes.extend(buffer.to_driver());
        }
        bytes
    }

    /// What this call left, which stands first in the driver's bytes; none where they are cut.
    pub fn left(&self, bytes: &mut &[u8]) -> Option<Left> {
        let (&answer, rest) = bytes.split_first()?;
        *bytes = rest;
        let lent = self.lent.iter().map(|(_, buffer)| buffer.from_driver(bytes)).collect::<Option<Vec<Buffer>>>()?;
        Some(Left { answer, lent })
    }

    pub fn entries(&self) -> usize {
        self.lent.iter().map(|(_, buffer)| buffer.len()).sum()
    }
}
