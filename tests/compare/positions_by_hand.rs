//! Request 2026-04, 'Say where the stream is wrong': streams that are refused 1 to 4, each with its number and its position, worked out
//! from the papers' words by hand. First the short ones, by the part of the stream and what is wrong with it, then those at the limits.

use crate::limits::{branch_rules, different_rules, tree_for_q, TREE_B};
use crate::streams::{left_comb, ACCEPTING, BRANCH, BRANCH_RULE, HEAD, LEAF, LEAF_RULE, MOST_LEAVES, MOST_RULES};
use crate::tally::Tally;
use crate::verdict::{same, Verdict};
use records::{Record, Refusal};

pub struct Refused {
    what: &'static str,
    pub input: Vec<u8>,
    number: u8,
    position: usize,
}

/// A word on the stream, its bytes, the number that refuses it and the position.
type Short = (&'static str, &'static [u8], u8, usize);

/// A record begins at 0, 2, 4 and so on.
#[rustfmt::skip]
const TREES: &[Short] = &[
    // nothing: the tree ended where it would begin
    ("empty input", &[], 1, 0),
    ("a head without a tree", &[16, 2, 4], 1, 0),
    ("a query without a tree", &[16, 2, 4, 17, 5, 0, 0, 19, 1], 1, 0),
    ("a rule without a tree", &[17, 5, 0, 0], 1, 0),
    ("an unknown kind without a tree", &[7], 1, 0),
    // several subtrees: where the tree ended, whatever stands behind it
    ("two leaves", &[1, 5, 1, 5], 1, 4),
    ("two leaves with a query", &[1, 5, 1, 5, 16, 2, 4, 17, 5, 0, 0, 19, 1], 1, 4),
    ("two leaves with a head cut", &[1, 5, 1, 5, 16], 1, 4),
    ("two leaves with a head out of range", &[1, 5, 1, 5, 16, 9, 9], 1, 4),
    ("two leaves with no head", &[1, 5, 1, 5, 19, 1], 1, 4),
    ("three leaves with an unknown kind", &[1, 5, 1, 5, 1, 5, 0], 1, 6),
    ("a branch and a leaf", &[1, 5, 1, 5, 2, 9, 1, 5], 1, 8),
    ("a branch and a leaf with a query", &[1, 5, 1, 5, 2, 9, 1, 5, 16, 2, 4, 19, 1], 1, 8),
    // cut: a leaf and a branch have one byte behind their kind
    ("the first leaf cut", &[1], 1, 0),
    ("a leaf cut", &[1, 5, 1], 1, 2),
    ("the root cut", &[1, 5, 1, 5, 2], 1, 4),
    ("a leaf cut behind a branch", &[1, 5, 1, 5, 2, 9, 1], 1, 6),
    ("a lone branch cut", &[2], 1, 0),
    // labels
    ("the first leaf's label", &[1, 64, 16, 2, 4], 1, 0),
    ("a leaf's label", &[1, 5, 1, 255, 2, 9, 16, 2, 4], 1, 2),
    ("a branch's label", &[1, 5, 1, 5, 2, 64, 16, 2, 4], 1, 4),
    // fewer than two unjoined
    ("a branch on nothing", &[2, 9], 1, 0),
    ("a branch on one leaf", &[1, 5, 2, 9, 16, 2, 4], 1, 2),
    ("a branch on one branch", &[1, 5, 1, 5, 2, 9, 2, 9, 1, 5, 16, 2, 4], 1, 6),
    // the first of several
    ("two labels", &[1, 5, 1, 64, 2, 64], 1, 2),
    ("a label, then a branch on one leaf", &[1, 64, 2, 9], 1, 0),
    ("a branch on one leaf, then a cut", &[1, 5, 2, 9, 1], 1, 2),
    ("a label, and the query's head", &[1, 64, 16, 0, 0], 1, 0),
    ("a label, several subtrees, and a rule said twice", &[1, 5, 1, 64, 16, 2, 4, 17, 5, 0, 0, 17, 5, 0, 0], 1, 2),
];

/// The tree has 2 bytes.
#[rustfmt::skip]
const HEADS: &[Short] = &[
    // the input ends before a head: its length
    ("a leaf with no query", &[1, 5], 3, 2),
    ("tree A with no query", &[1, 5, 1, 5, 2, 9], 3, 6),
    ("tree B with no query", &[1, 5, 1, 5, 2, 9, 1, 5, 2, 9], 3, 10),
    // another record first
    ("a leaf rule before the head", &[1, 5, 17, 5, 0, 0, 16, 2, 4], 3, 2),
    ("a branch rule before the head", &[1, 5, 18, 9, 0, 0, 0, 0, 16, 2, 4], 3, 2),
    ("an accepting state before the head", &[1, 5, 19, 1, 16, 2, 4], 3, 2),
    ("an unknown kind before the head", &[1, 5, 0, 16, 2, 4], 3, 2),
    ("a kind alone that is no head", &[1, 5, 19], 3, 2),
    // cut
    ("a head cut behind its kind", &[1, 5, 16], 3, 2),
    ("a head cut behind its arity", &[1, 5, 16, 2], 3, 2),
    // out of range
    ("arity 0", &[1, 5, 16, 0, 4], 3, 2),
    ("arity 5", &[1, 5, 16, 5, 4, 19, 1], 3, 2),
    ("no states", &[1, 5, 16, 2, 0], 3, 2),
    ("17 states", &[1, 5, 16, 2, 17, 19, 1], 3, 2),
    ("arity 0 and no states", &[1, 5, 16, 0, 0, 16, 0, 0], 3, 2),
];

/// The tree has 2 bytes and the head 3, of arity 2 and 4 states. Then an accepting state has 2, a leaf rule 4, a branch rule 6.
#[rustfmt::skip]
const RECORDS: &[Short] = &[
    // cut, alone and behind other records
    ("a leaf rule cut behind its kind", &[1, 5, 16, 2, 4, 17], 3, 5),
    ("a leaf rule cut behind its label", &[1, 5, 16, 2, 4, 17, 5], 3, 5),
    ("a leaf rule cut behind its flag", &[1, 5, 16, 2, 4, 17, 5, 0], 3, 5),
    ("a branch rule cut behind its kind", &[1, 5, 16, 2, 4, 18], 3, 5),
    ("a branch rule cut behind its label", &[1, 5, 16, 2, 4, 18, 9], 3, 5),
    ("a branch rule cut behind its flag", &[1, 5, 16, 2, 4, 18, 9, 0], 3, 5),
    ("a branch rule cut behind its left state", &[1, 5, 16, 2, 4, 18, 9, 0, 0], 3, 5),
    ("a branch rule cut behind its right state", &[1, 5, 16, 2, 4, 18, 9, 0, 0, 0], 3, 5),
    ("an accepting state cut", &[1, 5, 16, 2, 4, 19], 3, 5),
    ("a leaf rule cut behind an accepting state", &[1, 5, 16, 2, 4, 19, 1, 17, 5, 0], 3, 7),
    ("a branch rule cut behind a leaf rule", &[1, 5, 16, 2, 4, 17, 5, 0, 0, 18, 9, 0, 0, 0], 3, 9),
    ("an accepting state cut behind a branch rule", &[1, 5, 16, 2, 4, 18, 9, 0, 0, 0, 0, 19], 3, 11),
    ("tree A, an accepting state cut", &[1, 5, 1, 5, 2, 9, 16, 2, 4, 19], 3, 9),
    // a second head
    ("a head behind the head", &[1, 5, 16, 2, 4, 16, 2, 4], 3, 5),
    ("a head behind a rule", &[1, 5, 16, 2, 4, 17, 5, 0, 0, 16, 2, 4, 19, 1], 3, 9),
    ("a head cut behind an accepting state", &[1, 5, 16, 2, 4, 19, 1, 16], 3, 7),
    // unknown kinds, and those of the tree
    ("kind 0", &[1, 5, 16, 2, 4, 0], 3, 5),
    ("kind 3", &[1, 5, 16, 2, 4, 3, 3, 3], 3, 5),
    ("kind 15", &[1, 5, 16, 2, 4, 19, 1, 15], 3, 7),
    ("kind 20", &[1, 5, 16, 2, 4, 17, 5, 0, 0, 20, 19, 1], 3, 9),
    ("kind 255", &[1, 5, 16, 2, 4, 18, 9, 0, 0, 0, 0, 255], 3, 11),
    ("a leaf in the query", &[1, 5, 16, 2, 4, 1, 5], 3, 5),
    ("a branch in the query", &[1, 5, 16, 2, 4, 19, 1, 2, 9], 3, 7),
    ("a leaf cut in the query", &[1, 5, 16, 2, 4, 17, 5, 0, 0, 1], 3, 9),
    ("a branch cut in the query", &[1, 5, 16, 2, 4, 2], 3, 5),
    // each number out of range
    ("a leaf rule's label", &[1, 5, 16, 2, 4, 17, 64, 0, 0], 3, 5),
    ("a leaf rule's flag", &[1, 5, 16, 2, 4, 17, 5, 4, 0], 3, 5),
    ("a leaf rule's state", &[1, 5, 16, 2, 4, 17, 5, 0, 4], 3, 5),
    ("a branch rule's label", &[1, 5, 16, 2, 4, 19, 1, 18, 64, 0, 0, 0, 0], 3, 7),
    ("a branch rule's flag", &[1, 5, 16, 2, 4, 19, 1, 18, 9, 4, 0, 0, 0], 3, 7),
    ("a branch rule's left state", &[1, 5, 16, 2, 4, 19, 1, 18, 9, 0, 4, 0, 0], 3, 7),
    ("a branch rule's right state", &[1, 5, 16, 2, 4, 19, 1, 18, 9, 0, 0, 4, 0], 3, 7),
    ("a branch rule's state", &[1, 5, 16, 2, 4, 19, 1, 18, 9, 0, 0, 0, 4], 3, 7),
    ("an accepting state", &[1, 5, 16, 2, 4, 17, 5, 0, 0, 19, 4], 3, 9),
    // said twice: the second of them
    ("a leaf rule twice", &[1, 5, 16, 2, 4, 17, 5, 1, 1, 17, 5, 1, 1], 4, 9),
    ("a leaf rule twice with another state", &[1, 5, 16, 2, 4, 17, 5, 1, 1, 19, 1, 17, 5, 1, 2, 19, 2], 4, 11),
    ("a branch rule twice", &[1, 5, 16, 2, 4, 18, 9, 0, 1, 2, 0, 18, 9, 0, 1, 2, 3], 4, 11),
    ("a branch rule twice with another between", &[1, 5, 16, 2, 4, 18, 9, 0, 1, 2, 0, 18, 9, 0, 2, 1, 0, 18, 9, 0, 1, 2, 0], 4, 17),
    ("a state accepted twice", &[1, 5, 16, 2, 4, 19, 1, 19, 1], 4, 7),
    ("a state accepted twice with others between", &[1, 5, 16, 2, 4, 19, 1, 17, 5, 1, 1, 19, 2, 19, 1, 17, 5, 0, 0], 4, 13),
    ("three times", &[1, 5, 16, 2, 4, 19, 1, 19, 1, 19, 1], 4, 7),
    // the first of several, 3 and 4 in either order
    ("twice, then out of range", &[1, 5, 16, 2, 4, 17, 5, 1, 1, 17, 5, 1, 2, 17, 5, 9, 9], 4, 9),
    ("out of range, then twice", &[1, 5, 16, 2, 4, 17, 5, 1, 1, 17, 5, 9, 9, 17, 5, 1, 2], 3, 9),
    ("twice, then cut", &[1, 5, 16, 2, 4, 19, 1, 19, 1, 17, 5], 4, 7),
    ("unknown, then cut", &[1, 5, 16, 2, 4, 19, 1, 0, 17, 5], 3, 7),
    // in one record 3 before 4
    ("twice and out of range", &[1, 5, 16, 2, 4, 17, 5, 1, 1, 17, 5, 1, 4], 3, 9),
    ("twice and cut", &[1, 5, 16, 2, 4, 17, 5, 1, 1, 17, 5, 1], 3, 9),
    ("a branch rule twice and out of range", &[1, 5, 16, 2, 4, 18, 9, 0, 1, 2, 0, 18, 9, 0, 1, 2, 4], 3, 11),
];

pub fn check_all(tally: &mut Tally) {
    for refused in all() {
        let Refused { what, input, number, position } = refused;
        tally.own("positions by hand", what, is_refused(&input, number, position));
    }
}

/// By both programs, at the position; `records` is lent nothing, since 5 and 6 come behind 1 to 4.
pub fn is_refused(input: &[u8], number: u8, position: usize) -> Verdict {
    let no_records: [Record; 0] = [];
    same("by records", records::build(input, &[], &no_records).answer, Err(Refusal::at(position, number)))?;
    same("by markings", markings::read(input).err(), Some(markings::Refusal { number, position }))
}

/// All of them, for the library and for the listing program too.
pub fn all() -> Vec<Refused> {
    let short = [TREES, HEADS, RECORDS].concat();
    let mut all: Vec<Refused> = Vec::new();
    for (what, input, number, position) in short {
        add(&mut all, what, &[input], number, position);
    }
    many_nodes(&mut all);
    many_rules(&mut all);
    far_behind(&mut all);
    farthest(&mut all);
    all
}

fn add(all: &mut Vec<Refused>, what: &'static str, parts: &[&[u8]], number: u8, position: usize) {
    all.push(Refused { what, input: parts.concat(), number, position });
}

/// 4,095 nodes have 8,190 bytes. The 4,096th kind is refused before its body is looked at: 2 before 1.
fn many_nodes(all: &mut Vec<Refused>) {
    let tree = tree_for_q(&left_comb(MOST_LEAVES));
    let query: &[u8] = &[HEAD, 2, 4, ACCEPTING, 1];
    for (what, last) in [
        ("a 4,096th leaf", [LEAF, 5].as_slice()),
        ("a 4,096th branch, on one subtree", &[BRANCH, 9]),
        ("a 4,096th leaf with its label out of range", &[LEAF, 64]),
        ("a 4,096th branch with its label out of range", &[BRANCH, 255]),
    ] {
        add(all, what, &[&tree, last], 2, 8190);
        add(all, what, &[&tree, last, query], 2, 8190);
    }
    add(all, "a 4,096th leaf cut", &[&tree, &[LEAF]], 2, 8190);
    add(all, "a 4,096th branch cut", &[&tree, &[BRANCH]], 2, 8190);
    add(all, "4,096 leaves", &[&[LEAF, 5].repeat(4096), query], 2, 8190);
    add(all, "4,095 leaves", &[&[LEAF, 5].repeat(4095), query], 1, 8190);
    add(all, "4,095 leaves with no query", &[&[LEAF, 5].repeat(4095)], 1, 8190);
    add(all, "4,095 nodes with no query", &[&tree], 3, 8190);
    add(all, "4,095 nodes with a head out of range", &[&tree, &[HEAD, 5, 4]], 3, 8190);
    add(all, "4,095 nodes with a head cut", &[&tree, &[HEAD, 4]], 3, 8190);
    add(all, "the 4,095th node's label", &[&tree[..8188], &[BRANCH, 64, LEAF, 5], query], 1, 8188);
    add(all, "the 4,095th node cut", &[&tree[..8189]], 1, 8188);
    add(all, "a label before a 4,096th leaf", &[&[LEAF, 64], &tree], 1, 0);
}

/// Tree B and the head have 13 bytes; of 1,024 rules 16 are leaf rules of 4 bytes, 64 in all, and 1,008 branch rules of 6, 6,048 in all.
fn many_rules(all: &mut Vec<Refused>) {
    let head: &[u8] = &[HEAD, 4, 16];
    let most = different_rules(MOST_RULES);
    for (what, last) in [
        ("a 1,025th rule", [LEAF_RULE, 6, 0, 0].as_slice()),
        ("a 1,025th rule that is one for branches", &[BRANCH_RULE, 20, 0, 0, 0, 0, ACCEPTING, 1]),
        ("a 1,025th rule, said twice", &[LEAF_RULE, 5, 0, 0]),
        ("a 1,025th rule out of range", &[LEAF_RULE, 64, 0, 0]),
        ("a 1,025th rule cut", &[LEAF_RULE, 6]),
        ("a 1,025th rule cut behind its kind", &[BRANCH_RULE]),
        ("a head behind 1,024 rules", head),
        ("a state out of range behind 1,024 rules", &[ACCEPTING, 16]),
    ] {
        add(all, what, &[TREE_B, head, &most, last], 3, 6125);
    }
    let accepting: &[u8] = &[ACCEPTING, 3, ACCEPTING, 15];
    add(all, "a 1,025th rule behind two states", &[TREE_B, head, accepting, &different_rules(MOST_RULES + 1)], 3, 6129);
    add(all, "a 1,025th rule before two states", &[TREE_B, head, &different_rules(MOST_RULES + 1), accepting], 3, 6125);
}

/// The same rules: of 1,023 one branch rule is less.
fn far_behind(all: &mut Vec<Refused>) {
    let head: &[u8] = &[HEAD, 4, 16];
    let accepting: &[u8] = &[ACCEPTING, 3];
    let rules = different_rules(MOST_RULES - 1);
    add(all, "the first rule again, the 1,024th", &[TREE_B, head, &rules, &[LEAF_RULE, 5, 0, 7]], 4, 6119);
    add(all, "the first branch rule again, the 1,024th", &[TREE_B, head, &rules, &[BRANCH_RULE, 9, 0, 0, 0, 7]], 4, 6119);
    add(all, "the last rule again, the 1,024th", &[TREE_B, head, &rules, &rules[rules.len() - 6..]], 4, 6119);
    add(all, "twice, then a 1,025th rule", &[TREE_B, head, &rules, &[LEAF_RULE, 5, 0, 7, LEAF_RULE, 6, 0, 0]], 4, 6119);
    let most = different_rules(MOST_RULES);
    add(all, "a state again behind 1,024 rules", &[TREE_B, head, accepting, &most, accepting], 4, 6127);
    add(all, "a state twice behind 1,024 rules", &[TREE_B, head, &most, accepting, accepting], 4, 6127);
}

/// Behind 4,095 nodes of 2 bytes, a head of 3, 1,024 branch rules of 6 and 16 accepting states of 2: no fault stands farther.
fn farthest(all: &mut Vec<Refused>) {
    let accepting: Vec<u8> = (0..16).flat_map(|state| [ACCEPTING, state]).collect();
    let longest = [&tree_for_q(&left_comb(MOST_LEAVES)), [HEAD, 4, 16].as_slice(), &branch_rules(), &accepting].concat();
    for (what, last, number) in [
        ("an unknown kind behind the longest stream", [0].as_slice(), 3),
        ("a rule behind the longest stream", &[LEAF_RULE, 5, 0, 0], 3),
        ("a head behind the longest stream", &[HEAD, 4, 16], 3),
        ("a leaf behind the longest stream", &[LEAF, 5], 3),
        ("a state cut behind the longest stream", &[ACCEPTING], 3),
        ("a state again behind the longest stream", &[ACCEPTING, 0], 4),
    ] {
        add(all, what, &[&longest, last], number, 14_369);
    }
    add(all, "the longest stream cut", &[&longest[..14_368]], 3, 14_367);
}
