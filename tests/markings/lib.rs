//! Tries all markings of a stream: every row of nodes of its tree, the rules run on the tree marked with the row, and the accepted
//! rows listed. A plain reading of document 01, 'The input stream', 'What a row is' and the first four 'Numbers that say no', of
//! request 2026-02's sentence on rows that name pads, and of request 2026-04's on positions. It shares no code with the library nor
//! with `records`, and knows nothing of sets, so that what it lists is what a row is.

use std::collections::HashMap;

const MOST_NODES: usize = 4095;
const MOST_LABEL: u8 = 63;
const MOST_RULES: usize = 1024;

const LEAF: u8 = 1;
const BRANCH: u8 = 2;
const HEAD: u8 = 16;
const LEAF_RULE: u8 = 17;
const BRANCH_RULE: u8 = 18;
const ACCEPTING: u8 = 19;

/// A leaf of this label is a pad, which is nothing in the source.
const PAD: u8 = 0;

/// The kind and left side of a rule: kind, label, flag, and for a branch the children's states.
type LeftSide = [u8; 5];

/// A node of the tree; a branch has two children, with lower numbers.
struct Node {
    label: u8,
    children: Option<(usize, usize)>,
}

impl Node {
    /// A branch of label 0 is none.
    fn is_pad(&self) -> bool {
        self.children.is_none() && self.label == PAD
    }
}

/// A stream that is not refused.
pub struct Stream {
    nodes: Vec<Node>,
    arity: usize,
    rules: HashMap<LeftSide, u8>,
    accepting: Vec<u8>,
}

/// Why a stream is refused: the number, 1 to 4, and the byte position.
#[derive(Clone, Copy, Debug, PartialEq)]
pub struct Refusal {
    pub number: u8,
    pub position: usize,
}

/// A record of the stream, with as much of its body as the input has.
struct Record<'a> {
    kind: u8,
    body: &'a [u8],
}

/// The number that refuses, and how many records of its part stand before the fault: all, where something is missing behind them.
struct Fault {
    number: u8,
    before: usize,
}

/// The stream that the input holds, or why it is refused.
pub fn read(input: &[u8]) -> Result<Stream, Refusal> {
    let records = records_of(input);
    let end = records.iter().position(|r| r.kind != LEAF && r.kind != BRANCH).unwrap_or(records.len());
    let (tree, query) = records.split_at(end);
    let nodes = nodes_of(tree).map_err(|fault| fault.behind(&[], tree))?;
    let mut stream = Stream { nodes, arity: 0, rules: HashMap::new(), accepting: Vec::new() };
    stream.add_query(query).map_err(|fault| fault.behind(tree, query))?;
    Ok(stream)
}

impl Fault {
    /// Its position is as many bytes as stand before it: those of the part before, and of the records before it in its own part.
    fn behind(&self, part_before: &[Record], own: &[Record]) -> Refusal {
        let position = part_before.iter().chain(&own[..self.before]).map(bytes_in).sum();
        Refusal { number: self.number, position }
    }
}

fn bytes_in(record: &Record) -> usize {
    1 + record.body.len()
}

fn body_length(kind: u8) -> Option<usize> {
    match kind {
        LEAF | BRANCH | ACCEPTING => Some(1),
        HEAD => Some(2),
        LEAF_RULE => Some(3),
        BRANCH_RULE => Some(5),
        _ => None,
    }
}

fn records_of(input: &[u8]) -> Vec<Record<'_>> {
    let mut records = Vec::new();
    let mut rest = input;
    while let Some((&kind, behind)) = rest.split_first() {
        // an unknown kind is refused where it stands, so nothing hangs on what is taken for its body
        let (body, next) = behind.split_at(body_length(kind).unwrap_or(0).min(behind.len()));
        records.push(Record { kind, body });
        rest = next;
    }
    records
}

fn is_cut(record: &Record) -> bool {
    body_length(record.kind) != Some(record.body.len())
}

fn nodes_of(records: &[Record]) -> Result<Vec<Node>, Fault> {
    let mut nodes = Vec::new();
    let mut unjoined = Vec::new();
    for (before, record) in records.iter().enumerate() {
        add_node(record, &mut nodes, &mut unjoined).map_err(|number| Fault { number, before })?;
    }
    // no node is no subtree
    if unjoined.len() == 1 {
        Ok(nodes)
    } else {
        Err(Fault { number: 1, before: records.len() })
    }
}

fn add_node(record: &Record, nodes: &mut Vec<Node>, unjoined: &mut Vec<usize>) -> Result<(), u8> {
    // before its body is looked at
    if nodes.len() == MOST_NODES {
        return Err(2);
    }
    if is_cut(record) || record.body[0] > MOST_LABEL {
        return Err(1);
    }
    let children = if record.kind == BRANCH { Some(last_two(unjoined)?) } else { None };
    unjoined.push(nodes.len());
    nodes.push(Node { label: record.body[0], children });
    Ok(())
}

/// The last two unjoined subtrees, the older one left.
fn last_two(unjoined: &mut Vec<usize>) -> Result<(usize, usize), u8> {
    let right = unjoined.pop().ok_or(1)?;
    let left = unjoined.pop().ok_or(1)?;
    Ok((left, right))
}

/// Of a record that is a head, with its numbers in their ranges.
fn arity_and_states(head: &Record) -> Option<(u8, u8)> {
    if head.kind != HEAD || is_cut(head) {
        return None;
    }
    let (arity, states) = (head.body[0], head.body[1]);
    Some((arity, states)).filter(|_| (1..=4).contains(&arity) && (1..=16).contains(&states))
}

/// The kind and left side of a rule that is not cut.
fn left_side(rule: &Record) -> LeftSide {
    let mut side = [0; 5];
    side[0] = rule.kind;
    for (to, from) in side[1..].iter_mut().zip(&rule.body[..rule.body.len() - 1]) {
        *to = *from;
    }
    side
}

impl Stream {
    fn add_query(&mut self, records: &[Record]) -> Result<(), Fault> {
        // the first record is at fault, or where there is none the input ends before a head
        let (arity, states) = records.first().and_then(arity_and_states).ok_or(Fault { number: 3, before: 0 })?;
        self.arity = arity as usize;
        for (before, record) in records.iter().enumerate().skip(1) {
            self.add_record(record, states).map_err(|number| Fault { number, before })?;
        }
        Ok(())
    }

    /// In one record 3 before 4.
    fn add_record(&mut self, record: &Record, states: u8) -> Result<(), u8> {
        if is_cut(record) || !self.in_range(record, states) {
            return Err(3);
        }
        if record.kind == ACCEPTING {
            return self.add_accepting(record.body[0]);
        }
        if self.rules.len() == MOST_RULES {
            return Err(3);
        }
        let state = record.body[record.body.len() - 1];
        match self.rules.insert(left_side(record), state) {
            None => Ok(()),
            Some(_) => Err(4),
        }
    }

    fn add_accepting(&mut self, state: u8) -> Result<(), u8> {
        if self.accepting.contains(&state) {
            return Err(4);
        }
        self.accepting.push(state);
        Ok(())
    }

    /// Of a kind that may stand behind the head, every number in its range.
    fn in_range(&self, record: &Record, states: u8) -> bool {
        let label_and_flag = |b: &[u8]| b[0] <= MOST_LABEL && (b[1] as usize) < 1 << self.arity;
        let body = record.body;
        match record.kind {
            LEAF_RULE => label_and_flag(body) && body[2] < states,
            BRANCH_RULE => label_and_flag(body) && body[2..].iter().all(|&state| state < states),
            ACCEPTING => body[0] < states,
            _ => false,
        }
    }

    pub fn nodes(&self) -> usize {
        self.nodes.len()
    }

    pub fn arity(&self) -> usize {
        self.arity
    }

    /// How many markings there are: nodes to the power of the arity.
    pub fn markings(&self) -> u64 {
        (self.nodes.len() as u64).pow(self.arity as u32)
    }

    /// All markings tried: the accepted rows, ascending by place 1, then place 2 and so on.
    pub fn accepted_rows(&self) -> Vec<Vec<u16>> {
        (0..self.markings()).map(|number| self.marking(number)).filter(|row| self.accepts(row)).collect()
    }

    /// The number's digits in base 'nodes', the highest at place 1, so that rows ascend with their numbers.
    fn marking(&self, mut number: u64) -> Vec<u16> {
        let mut row = vec![0; self.arity];
        for node in row.iter_mut().rev() {
            *node = (number % self.nodes.len() as u64) as u16;
            number /= self.nodes.len() as u64;
        }
        row
    }

    /// Whether the row, a node of the tree for each place, is in the answer. One that names a pad is not, whatever the rules say.
    pub fn accepts(&self, row: &[u16]) -> bool {
        if row.iter().any(|&node| self.nodes[node as usize].is_pad()) {
            return false;
        }
        match self.run(&self.marked(row)) {
            Some(state) => self.accepting.contains(&state),
            None => false,
        }
    }

    /// Each node's flag: the places where it stands in the row.
    fn marked(&self, row: &[u16]) -> Vec<u8> {
        let mut flags = vec![0; self.nodes.len()];
        for (place, &node) in row.iter().enumerate() {
            flags[node as usize] |= 1 << place;
        }
        flags
    }

    /// The root's state. A missing rule ends the run.
    fn run(&self, flags: &[u8]) -> Option<u8> {
        let mut states = Vec::with_capacity(self.nodes.len());
        for (node, &flag) in self.nodes.iter().zip(flags) {
            let side = match node.children {
                None => [LEAF_RULE, node.label, flag, 0, 0],
                Some((left, right)) => [BRANCH_RULE, node.label, flag, states[left], states[right]],
            };
            states.push(*self.rules.get(&side)?);
        }
        states.last().copied()
    }
}
