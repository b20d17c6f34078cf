//! Pads, the leaves of label 0 that stand in no row (request 2026-02): where they are in a stream's tree, what a stream has of their
//! label, and that no record is at one. Where they are is told by the tree's own bytes, and so by neither of the programs that leave
//! pads out; the rules beside them are those that `records` reads.

use crate::streams::{BRANCH, LEAF, PAD};
use crate::verdict::{same, Verdict};
use records::stream::Left;
use records::Record;
use std::rc::Rc;

/// The nodes that are pads. Many questions are asked on sets of one tree.
pub type Pads = Rc<Vec<u16>>;

pub fn pads_of(input: &[u8]) -> Pads {
    Rc::new((0..).zip(tree_of(input)).filter(|(_, record)| *record == [LEAF, PAD]).map(|(node, _)| node).collect())
}

fn tree_of(input: &[u8]) -> impl Iterator<Item = &[u8]> {
    input.chunks(2).take_while(|record| record[0] == LEAF || record[0] == BRANCH)
}

/// What an answered stream has of label 0.
#[derive(Clone, Copy, Default)]
pub struct Met {
    pub pad: bool,
    /// A leaf rule for label 0 with a flag above 0, beside a pad: it is never used.
    pub unused_rule: bool,
    /// And rows all the same.
    pub unused_rule_and_rows: bool,
    /// A branch of label 0, beside a rule for such branches with a flag above 0.
    pub marked_branch: bool,
}

impl Met {
    pub fn in_stream(input: &[u8], has_rows: bool) -> Met {
        let rules = records::stream::read(input).map_or(Vec::new(), |stream| stream.query.rules);
        let has_rule = |wanted: fn(&Left) -> bool| rules.iter().any(|rule| wanted(&rule.side));
        let pad = tree_of(input).any(|record| record == [LEAF, PAD]);
        let branch = tree_of(input).any(|record| record == [BRANCH, PAD]);
        let unused_rule = pad && has_rule(|side| matches!(side, Left::Leaf { label: PAD, flag: 1.. }));
        Met {
            pad,
            unused_rule,
            unused_rule_and_rows: unused_rule && has_rows,
            marked_branch: branch && has_rule(|side| matches!(side, Left::Branch { label: PAD, flag: 1.., .. })),
        }
    }
}

/// A rule that would mark a pad makes no record, and its rule with flag 0 makes none either: so no record is at one, under the root or
/// not.
pub fn check_records(input: &[u8], made: &[Record]) -> Verdict {
    let pads = pads_of(input);
    same("a record at a pad", made.iter().find(|record| pads.contains(&record.node)), None)
}
