//! What is timed: combs of any number of leaves, with the paper's query Q, alone or behind rules for other labels, with one whose states
//! are the places seen so far, or with one that has the most rules, all of two labels; and trees of random shape with random rules.

use crate::kinds::{ACCEPTING, BRANCH, BRANCH_RULE, HEAD, LEAF, LEAF_RULE, PAD};
use crate::random::Random;

/// The labels of a comb's leaves and branches, for which Q has its rules.
const COMB_LEAF: u8 = 5;
const COMB_BRANCH: u8 = 9;

/// All that a node may have.
const LABELS: usize = 64;

/// The rules of Q.
pub const RULES_OF_Q: usize = 11;

/// Each branch joins the tree so far with a new leaf.
pub fn comb(leaves: usize) -> Vec<u8> {
    let mut tree = vec![LEAF, COMB_LEAF];
    for _ in 1..leaves {
        tree.extend([LEAF, COMB_LEAF, BRANCH, COMB_BRANCH]);
    }
    tree
}

pub fn query_q() -> Vec<u8> {
    query_q_behind(0)
}

/// Q behind so many branch rules that match no node: they are spread over all labels above those of a comb, in turn.
pub fn query_q_behind(rules: usize) -> Vec<u8> {
    const FIRST_LABEL: usize = COMB_BRANCH as usize + 1;
    const OTHER_LABELS: usize = LABELS - FIRST_LABEL;
    // Q's own
    const ARITY: usize = 2;
    const STATES: usize = 4;
    const PAIRS: usize = STATES * STATES;
    let mut query = vec![HEAD, ARITY as u8, STATES as u8];
    for number in 0..rules {
        let (label, left_side) = (FIRST_LABEL + number % OTHER_LABELS, number / OTHER_LABELS);
        let (flag, left, right) = (left_side / PAIRS, left_side / STATES % STATES, left_side % STATES);
        query.extend([BRANCH_RULE, label as u8, flag as u8, left as u8, right as u8, 0]);
    }
    query.extend(leaf_rules_of_q(COMB_LEAF));
    for [left, right, state] in [[0, 0, 0], [1, 3, 2], [0, 2, 2], [2, 0, 2], [1, 0, 1], [0, 1, 1], [3, 0, 3], [0, 3, 3]] {
        query.extend([BRANCH_RULE, COMB_BRANCH, 0, left, right, state]);
    }
    query.extend([ACCEPTING, 2]);
    query
}

fn leaf_rules_of_q(label: u8) -> Vec<u8> {
    [(0, 0), (1, 1), (2, 3)].into_iter().flat_map(|(flag, state)| [LEAF_RULE, label, flag, state]).collect()
}

/// A comb with Q and a leaf rule of Q again, which names another state.
pub fn rule_said_twice() -> Vec<u8> {
    [comb(2), query_q(), vec![LEAF_RULE, COMB_LEAF, 0, 1]].concat()
}

/// A comb of two leaves joined with a pad, and Q, with leaf rules for the pad too: both leaves are the one row, since a row that names
/// the pad is not in the answer.
pub fn rules_for_a_pad() -> Vec<u8> {
    [comb(2), vec![LEAF, PAD, BRANCH, COMB_BRANCH], query_q(), leaf_rules_of_q(PAD)].concat()
}

/// Every row is accepted; 16 states, and with arity 4 the most rules that such a query has, 272.
pub fn places_seen(arity: usize) -> Vec<u8> {
    const STATES: u8 = 16;
    let flags = 1u8 << arity;
    let mut query = vec![HEAD, arity as u8, STATES];
    for flag in 0..flags {
        query.extend([LEAF_RULE, COMB_LEAF, flag, flag]);
    }
    for own in 0..flags {
        for (left, right) in (0..flags).flat_map(|left| (0..flags).map(move |right| (left, right))) {
            if own & left == 0 && (own | left) & right == 0 {
                query.extend([BRANCH_RULE, COMB_BRANCH, own, left, right, own | left | right]);
            }
        }
    }
    query.extend([ACCEPTING, flags - 1]);
    query
}

/// 1,024 rules, all for the labels of a comb: for each of four flags a leaf rule and, behind it, a branch rule for each pair of 16 states
/// but the last. A state is the places seen at leaves, and times four those seen at branches, so every row is accepted. Of the pairs at
/// a branch most have nothing on one side: a leaf has four states, the tree so far at most nine.
pub fn many_of_one_label() -> Vec<u8> {
    const ARITY: u8 = 2;
    const FLAGS: u8 = 1 << ARITY;
    const STATES: u8 = 16;
    let pairs = (0..STATES).flat_map(|left| (0..STATES).map(move |right| (left, right)));
    let all_but_the_last = pairs.clone().count() - 1;
    let mut query = vec![HEAD, ARITY, STATES];
    for own in 0..FLAGS {
        query.extend([LEAF_RULE, COMB_LEAF, own, own]);
        for (left, right) in pairs.clone().take(all_but_the_last) {
            query.extend([BRANCH_RULE, COMB_BRANCH, own, left, right, left | right | own * FLAGS]);
        }
    }
    for state in (0..STATES).filter(|state| state % FLAGS | state / FLAGS == FLAGS - 1) {
        query.extend([ACCEPTING, state]);
    }
    query
}

// ---- random shapes

/// Leaves and branches both have so many labels, from the one behind a pad's on: every leaf may stand in a row.
const RANDOM_LABELS: usize = 3;
const FIRST_RANDOM_LABEL: u8 = PAD + 1;

/// Leaves come and subtrees are joined as often as each other.
pub fn any_shape(random: &mut Random, leaves: usize) -> Vec<u8> {
    let (mut tree, mut unjoined, mut left) = (Vec::new(), 0, leaves);
    while left > 0 || unjoined > 1 {
        let joins = unjoined > 1 && (left == 0 || random.below(2) == 0);
        if joins {
            unjoined -= 1;
        } else {
            unjoined += 1;
            left -= 1;
        }
        tree.extend([if joins { BRANCH } else { LEAF }, FIRST_RANDOM_LABEL + random.below(RANDOM_LABELS) as u8]);
    }
    tree
}

/// Which flags of their own the rules of a branch have.
#[derive(Clone, Copy)]
pub enum Own {
    /// None for every pair of states, and each other flag for one pair: most rules of a branch pass states on.
    Few,
    /// Every one for every pair: every left side has a rule, so every row has a run.
    All,
}

/// Of one label and flag no two rules with the same left state name the same state, nor two with the same right state: runs that differ
/// below a node differ above it too, and fill many states.
pub fn any_states(random: &mut Random, arity: usize, states: usize, own: Own) -> Vec<u8> {
    let mut query = vec![HEAD, arity as u8, states as u8];
    let labels = (FIRST_RANDOM_LABEL..).take(RANDOM_LABELS);
    for (label, flag) in labels.flat_map(|label| (0..1 << arity).map(move |flag| (label, flag))) {
        query.extend([LEAF_RULE, label, flag, random.below(states) as u8]);
        let (named, pair) = (any_order(random, states), (random.below(states), random.below(states)));
        for (left, right) in (0..states).flat_map(|left| (0..states).map(move |right| (left, right))) {
            if flag == 0 || matches!(own, Own::All) || (left, right) == pair {
                query.extend([BRANCH_RULE, label, flag, left as u8, right as u8, named[(left + right) % states]]);
            }
        }
    }
    query.extend((0..states as u8 / 2).flat_map(|state| [ACCEPTING, state]));
    query
}

/// The states, each once.
fn any_order(random: &mut Random, states: usize) -> Vec<u8> {
    let mut order: Vec<u8> = (0..states as u8).collect();
    for end in (1..states).rev() {
        order.swap(end, random.below(end + 1));
    }
    order
}
