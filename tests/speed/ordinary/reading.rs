//! How the ordinary program reads a stream: the tree's symbols in a Vec, and the rules in a Vec for each label.

use crate::kinds::{ACCEPTING, BRANCH, BRANCH_RULE, HEAD, LEAF, LEAF_RULE, PAD};

const LABELS: usize = 64;

#[derive(Clone, Copy)]
pub enum Symbol {
    Leaf(u8),
    Branch(u8),
}

#[derive(Clone)]
pub struct LeafRule {
    pub flag: u16,
    pub state: usize,
}

#[derive(Clone)]
pub struct BranchRule {
    pub flag: u16,
    pub left: usize,
    pub right: usize,
    pub state: usize,
}

/// The rules that are used stand by label, each label's in the order of the stream.
pub struct Query {
    pub arity: usize,
    pub states: usize,
    pub leaf_rules: Vec<Vec<LeafRule>>,
    pub branch_rules: Vec<Vec<BranchRule>>,
    pub accepting: Vec<usize>,
}

impl Query {
    fn new() -> Query {
        let (leaf_rules, branch_rules) = (vec![Vec::new(); LABELS], vec![Vec::new(); LABELS]);
        Query { arity: 0, states: 0, leaf_rules, branch_rules, accepting: Vec::new() }
    }

    /// Takes a record, and says how long it is.
    fn take(&mut self, record: &[u8]) -> usize {
        match *record {
            [HEAD, arity, states, ..] => {
                (self.arity, self.states) = (arity as usize, states as usize);
                3
            }
            [LEAF_RULE, label, flag, state, ..] => {
                // a pad stands in no row, so a rule that would mark one is never used
                if label != PAD || flag == 0 {
                    self.leaf_rules[label as usize].push(LeafRule { flag: flag as u16, state: state as usize });
                }
                4
            }
            [BRANCH_RULE, label, flag, left, right, state, ..] => {
                let (left, right, state) = (left as usize, right as usize, state as usize);
                self.branch_rules[label as usize].push(BranchRule { flag: flag as u16, left, right, state });
                6
            }
            [ACCEPTING, state, ..] => {
                self.accepting.push(state as usize);
                2
            }
            _ => panic!("no record of a query"),
        }
    }
}

/// The tree and the query; none where a rule is not new. `is_new` is given its kind and left side.
pub fn read<'a>(input: &'a [u8], mut is_new: impl FnMut(&'a [u8]) -> bool) -> Option<(Vec<Symbol>, Query)> {
    let (mut tree, mut query, mut at) = (Vec::new(), Query::new(), 0);
    while at < input.len() {
        at += match input[at] {
            LEAF => {
                tree.push(Symbol::Leaf(input[at + 1]));
                2
            }
            BRANCH => {
                tree.push(Symbol::Branch(input[at + 1]));
                2
            }
            kind => {
                let length = query.take(&input[at..]);
                // its last byte is the state that it names
                if (kind == LEAF_RULE || kind == BRANCH_RULE) && !is_new(&input[at..at + length - 1]) {
                    return None;
                }
                length
            }
        };
    }
    query.accepting.sort();
    Some((tree, query))
}
