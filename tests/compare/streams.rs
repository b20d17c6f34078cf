//! Makes valid streams: trees, and queries biased so that rules match and rows exist.

use crate::random::Random;
use std::collections::{BTreeMap, BTreeSet};

pub const LEAF: u8 = 1;
pub const BRANCH: u8 = 2;
pub const HEAD: u8 = 16;
pub const LEAF_RULE: u8 = 17;
pub const BRANCH_RULE: u8 = 18;
pub const ACCEPTING: u8 = 19;

/// A leaf of this label is a pad and stands in no row; a branch of this label is one like any other.
pub const PAD: u8 = 0;

pub const MOST_RULES: usize = 1024;

/// The leaves of a tree of 4,095 nodes.
pub const MOST_LEAVES: usize = 2048;

/// A stream by its records, so that damage can be done to bytes and to whole records.
#[derive(Clone)]
pub struct Stream {
    pub tree: Vec<[u8; 2]>,
    pub query: Vec<Vec<u8>>,
}

impl Stream {
    pub fn records(&self) -> Vec<Vec<u8>> {
        self.tree.iter().map(|record| record.to_vec()).chain(self.query.iter().cloned()).collect()
    }

    pub fn bytes(&self) -> Vec<u8> {
        self.records().concat()
    }
}

// ---- trees: first the kinds, leaf or branch, then the labels

/// In order of the nodes: a leaf, then each leaf joined with the tree so far.
pub fn left_comb(leaves: usize) -> Vec<u8> {
    let mut kinds = vec![LEAF];
    for _ in 1..leaves {
        kinds.extend([LEAF, BRANCH]);
    }
    kinds
}

/// All leaves first, so that as many subtrees as there are leaves stand unjoined.
pub fn right_comb(leaves: usize) -> Vec<u8> {
    let mut kinds = vec![LEAF; leaves];
    kinds.resize(2 * leaves - 1, BRANCH);
    kinds
}

pub fn balanced(leaves: usize) -> Vec<u8> {
    if leaves == 1 {
        return vec![LEAF];
    }
    let mut kinds = balanced(leaves / 2);
    kinds.extend(balanced(leaves - leaves / 2));
    kinds.push(BRANCH);
    kinds
}

/// Joins whenever it can, as often as `joining` in a hundred.
pub fn any_shape(random: &mut Random, leaves: usize, joining: usize) -> Vec<u8> {
    let (mut kinds, mut unjoined, mut left) = (Vec::new(), 0, leaves);
    while left > 0 || unjoined > 1 {
        if unjoined > 1 && (left == 0 || random.chance(joining)) {
            kinds.push(BRANCH);
            unjoined -= 1;
        } else {
            kinds.push(LEAF);
            unjoined += 1;
            left -= 1;
        }
    }
    kinds
}

/// The labels in use, of leaves and of branches.
pub struct Labels {
    pub leaf: Vec<u8>,
    pub branch: Vec<u8>,
}

/// One to three of each. Where they are the same numbers, a leaf and a branch still are different symbols.
fn any_labels(random: &mut Random) -> Labels {
    let leaf = some_labels(random);
    let branch = if random.chance(30) { leaf.clone() } else { some_labels(random) };
    Labels { leaf, branch }
}

/// The label of pads is often among them, or the only one.
fn some_labels(random: &mut Random) -> Vec<u8> {
    let mut labels: Vec<u8> = (0..random.between(1, 3)).map(|_| random.below(64) as u8).collect();
    if random.chance(45) {
        labels[0] = PAD;
    }
    labels
}

pub fn labelled(random: &mut Random, kinds: &[u8], labels: &Labels) -> Vec<[u8; 2]> {
    let mut label = |kind| random.pick(if kind == LEAF { &labels.leaf } else { &labels.branch });
    kinds.iter().map(|&kind| [kind, label(kind)]).collect()
}

fn any_tree(random: &mut Random, most_leaves: usize, labels: &Labels) -> Vec<[u8; 2]> {
    let leaves = random.between(1, most_leaves);
    let joining = random.pick(&[0, 20, 50, 80, 100]);
    let kinds = any_shape(random, leaves, joining);
    labelled(random, &kinds, labels)
}

/// So many that trying all markings stays quick: 13 nodes, and 9 or rarely 13 with arity 4.
fn most_leaves(random: &mut Random, arity: usize) -> usize {
    if arity < 4 || random.chance(3) {
        7
    } else {
        5
    }
}

// ---- queries

/// A query before its records are put in an order. A rule is the bytes of its kind and left side, with the state that it names.
pub struct Query {
    pub arity: usize,
    pub states: usize,
    pub rules: BTreeMap<Vec<u8>, u8>,
    pub accepting: BTreeSet<u8>,
}

impl Query {
    pub fn new(arity: usize, states: usize) -> Query {
        Query { arity, states, rules: BTreeMap::new(), accepting: BTreeSet::new() }
    }

    pub fn flags(&self) -> u8 {
        1 << self.arity
    }

    pub fn any_state(&self, random: &mut Random) -> u8 {
        random.below(self.states) as u8
    }

    /// The state that the rule with this left side names; where there is none, a rule is added.
    fn state_for(&mut self, random: &mut Random, side: Vec<u8>) -> u8 {
        let state = self.any_state(random);
        if self.rules.len() >= MOST_RULES {
            return *self.rules.get(&side).unwrap_or(&state);
        }
        *self.rules.entry(side).or_insert(state)
    }

    pub fn add(&mut self, side: &[u8], state: u8) {
        if self.rules.len() < MOST_RULES {
            self.rules.entry(side.to_vec()).or_insert(state);
        }
    }

    /// Any left side in range; the label one of those in use, or rarely another.
    pub fn add_any_rule(&mut self, random: &mut Random, labels: &Labels) {
        let is_leaf = random.chance(40);
        let used = if is_leaf { &labels.leaf } else { &labels.branch };
        let label = if random.chance(85) { random.pick(used) } else { random.below(64) as u8 };
        let flag = random.below(self.flags() as usize) as u8;
        let side = if is_leaf {
            vec![LEAF_RULE, label, flag]
        } else {
            vec![BRANCH_RULE, label, flag, self.any_state(random), self.any_state(random)]
        };
        let state = self.any_state(random);
        self.add(&side, state);
    }

    /// The head, the rules and the accepting states, as they stand.
    pub fn records(&self) -> Vec<Vec<u8>> {
        let head = vec![HEAD, self.arity as u8, self.states as u8];
        let rules = self.rules.iter().map(|(side, state)| [side.as_slice(), &[*state]].concat());
        let accepting = self.accepting.iter().map(|&state| vec![ACCEPTING, state]);
        std::iter::once(head).chain(rules).chain(accepting).collect()
    }

    /// Behind the head in any order.
    pub fn shuffled(&self, random: &mut Random) -> Vec<Vec<u8>> {
        let mut records = self.records();
        random.shuffle(&mut records[1..]);
        records
    }
}

/// Makes a stream in which these labels are in use.
type OfLabels = fn(&mut Random, &Labels) -> Stream;

fn of_any_labels(random: &mut Random, make: OfLabels) -> Stream {
    let labels = any_labels(random);
    make(random, &labels)
}

pub fn grown(random: &mut Random) -> Stream {
    of_any_labels(random, grown_of)
}

pub fn dense(random: &mut Random) -> Stream {
    of_any_labels(random, dense_of)
}

pub fn any_places_seen(random: &mut Random) -> Stream {
    of_any_labels(random, places_seen_of)
}

/// Rules grown along the runs of some rows, so that these rows have runs, most of them accepted.
fn grown_of(random: &mut Random, labels: &Labels) -> Stream {
    let arity = random.between(1, 4);
    let leaves = most_leaves(random, arity);
    let tree = any_tree(random, leaves, labels);
    let states = if random.chance(70) { random.between(1, 5) } else { random.between(1, 16) };
    let mut query = Query::new(arity, states);
    let mut row: Vec<usize> = (0..arity).map(|_| any_node(random, &tree)).collect();
    for _ in 0..random.between(1, 8) {
        let root = grow(random, &mut query, &tree, &row);
        if random.chance(90) {
            query.accepting.insert(root);
        }
        // the next row is like this one at the other places
        row[random.below(arity)] = any_node(random, &tree);
    }
    for _ in 0..random.pick(&[0, 0, 3, 12]) {
        query.add_any_rule(random, labels);
    }
    Stream { tree, query: query.shuffled(random) }
}

/// Mostly one that may stand in a row, so that there are rows; else any, so that there are rules that would mark a pad.
fn any_node(random: &mut Random, tree: &[[u8; 2]]) -> usize {
    let others: Vec<usize> = (0..tree.len()).filter(|&node| tree[node] != [LEAF, PAD]).collect();
    if others.is_empty() || random.chance(25) {
        random.below(tree.len())
    } else {
        random.pick(&others)
    }
}

/// Runs the row, and gives each node that has no rule one. The root's state.
fn grow(random: &mut Random, query: &mut Query, tree: &[[u8; 2]], row: &[usize]) -> u8 {
    let mut unjoined: Vec<u8> = Vec::new();
    for (node, &[kind, label]) in tree.iter().enumerate() {
        let flag = (0..row.len()).filter(|&place| row[place] == node).map(|place| 1 << place).sum();
        let state = if kind == LEAF {
            query.state_for(random, vec![LEAF_RULE, label, flag])
        } else {
            let right = unjoined.pop().expect("a right subtree");
            let left = unjoined.pop().expect("a left subtree");
            query.state_for(random, vec![BRANCH_RULE, label, flag, left, right])
        };
        unjoined.push(state);
    }
    unjoined[0]
}

/// Most left sides have a rule, so that many rows have runs.
fn dense_of(random: &mut Random, labels: &Labels) -> Stream {
    let arity = random.between(1, 4);
    let leaves = most_leaves(random, arity);
    let tree = any_tree(random, leaves, labels);
    let mut query = Query::new(arity, random.between(1, if arity == 4 { 2 } else { 3 }));
    let (leaf, unmarked, marked) = (random.between(50, 100), random.between(60, 100), random.pick(&[0, 20, 60]));
    add_leaf_rules(random, &mut query, labels, leaf);
    add_branch_rules(random, &mut query, labels, unmarked, marked);
    for state in 0..query.states as u8 {
        if random.chance(70) {
            query.accepting.insert(state);
        }
    }
    Stream { tree, query: query.shuffled(random) }
}

fn add_leaf_rules(random: &mut Random, query: &mut Query, labels: &Labels, often: usize) {
    for &label in &labels.leaf {
        for flag in 0..query.flags() {
            let state = query.any_state(random);
            if random.chance(often) {
                query.add(&[LEAF_RULE, label, flag], state);
            }
        }
    }
}

fn add_branch_rules(random: &mut Random, query: &mut Query, labels: &Labels, unmarked: usize, marked: usize) {
    let states = query.states as u8;
    for &label in &labels.branch {
        for flag in 0..query.flags() {
            for pair in 0..states * states {
                let state = query.any_state(random);
                if random.chance(if flag == 0 { unmarked } else { marked }) {
                    query.add(&[BRANCH_RULE, label, flag, pair / states, pair % states], state);
                }
            }
        }
    }
}

/// The states are the places seen so far, as a flag: every row that names no pad is accepted, or every such row of leaves if no branch
/// may be marked. Pads have the rules of other leaves, those that would mark them too.
pub fn places_seen(arity: usize, states: usize, labels: &Labels, branches: bool) -> Query {
    let mut query = Query::new(arity, states);
    let flags = query.flags();
    for (&label, flag) in labels.leaf.iter().flat_map(|label| (0..flags).map(move |flag| (label, flag))) {
        query.add(&[LEAF_RULE, label, flag], flag);
    }
    for &label in &labels.branch {
        for own in 0..if branches { flags } else { 1 } {
            for (left, right) in (0..flags).flat_map(|left| (0..flags).map(move |right| (left, right))) {
                if own & left == 0 && (own | left) & right == 0 {
                    query.add(&[BRANCH_RULE, label, own, left, right], own | left | right);
                }
            }
        }
    }
    query.accepting.insert(flags - 1);
    query
}

fn places_seen_of(random: &mut Random, labels: &Labels) -> Stream {
    let arity = random.between(1, 4);
    let tree = any_tree(random, if arity == 4 { 4 } else { 6 }, labels);
    let states = random.between(1 << arity, 16);
    let branches = random.chance(60);
    Stream { tree, query: places_seen(arity, states, labels, branches).shuffled(random) }
}

/// Of so many nodes and rules that a fault may stand far behind the first byte.
pub fn large(random: &mut Random) -> Stream {
    let labels = any_labels(random);
    let tree = any_tree(random, MOST_LEAVES, &labels);
    // more than one place, so that all markings are too many to be tried
    let mut query = Query::new(random.between(2, 4), random.between(1, 16));
    for _ in 0..random.between(1, MOST_RULES) {
        query.add_any_rule(random, &labels);
    }
    for _ in 0..random.below(4) {
        query.accepting.insert(query.any_state(random));
    }
    Stream { tree, query: query.shuffled(random) }
}

// ---- pads

/// Makes any of the streams above.
fn any_of(random: &mut Random, labels: &Labels) -> Stream {
    let make = random.pick(&[grown_of as OfLabels, dense_of, places_seen_of]);
    make(random, labels)
}

pub fn some_pads(random: &mut Random) -> Stream {
    let labels = Labels { leaf: vec![PAD, random.between(1, 63) as u8], ..any_labels(random) };
    any_of(random, &labels)
}

/// All leaves are pads, so that rows are of branches only.
pub fn leaves_all_pads(random: &mut Random) -> Stream {
    let labels = Labels { leaf: vec![PAD], ..any_labels(random) };
    any_of(random, &labels)
}

/// The label of pads is that of the branches too.
pub fn one_label(random: &mut Random) -> Stream {
    any_of(random, &Labels { leaf: vec![PAD], branch: vec![PAD] })
}

/// The tree is one pad, so that there is no row, whatever the rules are.
pub fn one_pad(random: &mut Random) -> Stream {
    Stream { tree: vec![[LEAF, PAD]], ..one_label(random) }
}

// ---- query Q

fn leaf_rules_of_q(label: u8) -> impl Iterator<Item = Vec<u8>> {
    [(0, 0), (1, 1), (2, 3)].into_iter().map(move |(flag, state)| vec![LEAF_RULE, label, flag, state])
}

/// Document 01's query Q, its records in the paper's order.
pub fn query_q() -> Vec<Vec<u8>> {
    let mut records = vec![vec![HEAD, 2, 4]];
    records.extend(leaf_rules_of_q(5));
    for [left, right, state] in [[0, 0, 0], [1, 3, 2], [0, 2, 2], [2, 0, 2], [1, 0, 1], [0, 1, 1], [3, 0, 3], [0, 3, 3]] {
        records.push(vec![BRANCH_RULE, 9, 0, left, right, state]);
    }
    records.push(vec![ACCEPTING, 2]);
    records
}

/// The labels that Q speaks of.
pub fn labels_of_q() -> Labels {
    Labels { leaf: vec![5], branch: vec![9] }
}

pub fn any_with_q(random: &mut Random) -> Stream {
    let (mut labels, mut query) = (labels_of_q(), query_q());
    match random.below(10) {
        // a leaf that Q knows nothing of
        0..=1 => labels.leaf.push(9),
        // pads, with the rules of Q's own leaves
        2..=5 => {
            labels.leaf.push(PAD);
            query.extend(leaf_rules_of_q(PAD));
        }
        _ => (),
    }
    let tree = any_tree(random, 12, &labels);
    if random.chance(50) {
        random.shuffle(&mut query[1..]);
    }
    Stream { tree, query }
}

pub fn any_valid(random: &mut Random) -> Stream {
    match random.below(10) {
        0..=5 => grown(random),
        6..=8 => dense(random),
        _ => any_with_q(random),
    }
}
