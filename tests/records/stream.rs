//! 'The input stream', read from its first byte to its last, and refusals 1 to 4, each with the position that request 2026-04 gives it.

use crate::{refuse_unless, Refusal};

/// A tree record, with its label. Leaf label 5 and branch label 5 are different symbols.
#[derive(Clone, Copy, Debug, PartialEq)]
pub enum Symbol {
    Leaf(u8),
    Branch(u8),
}

/// The kind and left side of a rule.
#[derive(Clone, Copy, Debug, PartialEq)]
pub enum Left {
    Leaf { label: u8, flag: u8 },
    Branch { label: u8, flag: u8, left: u8, right: u8 },
}

#[derive(Clone, Copy, Debug)]
pub struct Rule {
    pub side: Left,
    pub state: u8,
}

/// The rules in file order; `accepting[q]` where state q is accepting.
pub struct Query {
    pub arity: usize,
    pub states: usize,
    pub rules: Vec<Rule>,
    pub accepting: [bool; 16],
}

pub struct Stream {
    pub tree: Vec<Symbol>,
    pub most_unjoined: usize,
    pub query: Query,
}

/// The bytes, and how many of them are read.
struct Reader<'a> {
    input: &'a [u8],
    at: usize,
}

impl Reader<'_> {
    /// The next record's kind, which is not stepped over.
    fn kind(&self) -> Option<u8> {
        self.input.get(self.at).copied()
    }

    /// Steps over the kind and a body of N bytes; refused with the number where the input is cut in it.
    fn body<const N: usize>(&mut self, number: u8) -> Result<[u8; N], u8> {
        let from = self.at + 1;
        let body = self.input.get(from..from + N).ok_or(number)?;
        self.at = from + N;
        Ok(body.try_into().unwrap())
    }

    /// What is read here begins where the reader stands, and that is the position where it is refused.
    fn from_here<T>(&mut self, read: impl FnOnce(&mut Self) -> Result<T, u8>) -> Result<T, Refusal> {
        let first = self.at;
        read(self).map_err(|number| Refusal::at(first, number))
    }
}

pub fn read(input: &[u8]) -> Result<Stream, Refusal> {
    let mut reader = Reader { input, at: 0 };
    let tree = read_tree(&mut reader)?;
    // where the input ends before a head, its length
    let mut query = reader.from_here(read_head)?;
    while let Some(kind) = reader.kind() {
        reader.from_here(|reader| query.read_record(kind, reader))?;
    }
    Ok(Stream { tree: tree.symbols, most_unjoined: tree.most_unjoined, query })
}

/// As far as it is read, with the subtrees unjoined now, and the most ever.
#[derive(Default)]
struct Tree {
    symbols: Vec<Symbol>,
    unjoined: usize,
    most_unjoined: usize,
}

fn read_tree(reader: &mut Reader) -> Result<Tree, Refusal> {
    let mut tree = Tree::default();
    while let Some(kind @ (1 | 2)) = reader.kind() {
        reader.from_here(|reader| tree.read_record(kind, reader))?;
    }
    // nothing or several subtrees: the place where it ended
    reader.from_here(|_| refuse_unless(1, tree.unjoined == 1))?;
    Ok(tree)
}

impl Tree {
    fn read_record(&mut self, kind: u8, reader: &mut Reader) -> Result<(), u8> {
        refuse_unless(2, self.symbols.len() < 4095)?;
        let [label] = reader.body(1)?;
        refuse_unless(1, label <= 63)?;
        if kind == 2 {
            refuse_unless(1, self.unjoined >= 2)?;
            self.unjoined -= 2;
        }
        self.unjoined += 1;
        self.most_unjoined = self.most_unjoined.max(self.unjoined);
        self.symbols.push(if kind == 1 { Symbol::Leaf(label) } else { Symbol::Branch(label) });
        Ok(())
    }
}

fn read_head(reader: &mut Reader) -> Result<Query, u8> {
    refuse_unless(3, reader.kind() == Some(16))?;
    let [arity, states] = reader.body(3)?;
    refuse_unless(3, 1 <= arity && arity <= 4 && 1 <= states && states <= 16)?;
    Ok(Query { arity: arity as usize, states: states as usize, rules: Vec::new(), accepting: [false; 16] })
}

impl Query {
    fn read_record(&mut self, kind: u8, reader: &mut Reader) -> Result<(), u8> {
        match kind {
            17 => {
                let [label, flag, state] = reader.body(3)?;
                self.add_rule(Left::Leaf { label, flag }, label, flag, &[state])
            }
            18 => {
                let [label, flag, left, right, state] = reader.body(3)?;
                self.add_rule(Left::Branch { label, flag, left, right }, label, flag, &[left, right, state])
            }
            19 => {
                let [state] = reader.body(3)?;
                self.accept(state)
            }
            // a second head, or an unknown kind
            _ => Err(3),
        }
    }

    /// `states` are all states of the rule; the last is the one that it names.
    fn add_rule(&mut self, side: Left, label: u8, flag: u8, states: &[u8]) -> Result<(), u8> {
        refuse_unless(3, self.rules.len() < 1024)?;
        refuse_unless(3, label <= 63 && (flag as usize) < 1 << self.arity)?;
        refuse_unless(3, states.iter().all(|&state| self.has(state)))?;
        refuse_unless(4, self.rules.iter().all(|earlier| earlier.side != side))?;
        self.rules.push(Rule { side, state: states[states.len() - 1] });
        Ok(())
    }

    fn accept(&mut self, state: u8) -> Result<(), u8> {
        refuse_unless(3, self.has(state))?;
        refuse_unless(4, !self.accepting[state as usize])?;
        self.accepting[state as usize] = true;
        Ok(())
    }

    fn has(&self, state: u8) -> bool {
        (state as usize) < self.states
    }
}
