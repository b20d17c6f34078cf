//! Cases at the limits of document 01: each number at its last right value and at its first wrong one, and each refusal beside its
//! neighbours in the order.

use crate::cases::{lend, Case, Room, LONGEST_TABLE};
use crate::pad_limits;
use crate::pads_by_hand;
use crate::positions_by_hand;
use crate::random::Random;
use crate::streams::{
    any_shape, balanced, labelled, labels_of_q, left_comb, places_seen, query_q, right_comb, Labels, Query, Stream, ACCEPTING,
    BRANCH, BRANCH_RULE, HEAD, LEAF, LEAF_RULE, MOST_LEAVES, MOST_RULES, PAD,
};

pub struct Limit {
    pub kind: &'static str,
    pub input: Vec<u8>,
    pub room: Room,
}

pub const TREE_A: &[u8] = &[1, 5, 1, 5, 2, 9];
pub const TREE_B: &[u8] = &[1, 5, 1, 5, 2, 9, 1, 5, 2, 9];
const TREE_C: &[u8] = &[1, 5];

pub fn all() -> Vec<Limit> {
    let mut limits = Vec::new();
    most_nodes(&mut limits);
    too_many_nodes(&mut limits);
    most_work(&mut limits);
    rules(&mut limits);
    heads(&mut limits);
    labels(&mut limits);
    flags(&mut limits);
    states(&mut limits);
    kinds(&mut limits);
    orders(&mut limits);
    cuts(&mut limits);
    short_buffers(&mut limits);
    all_states_accepting(&mut limits);
    most_records(&mut limits);
    pad_limits::add_all(&mut limits);
    positions(&mut limits);
    limits
}

pub fn add(limits: &mut Vec<Limit>, kind: &'static str, parts: &[&[u8]], room: Room) {
    limits.push(Limit { kind, input: parts.concat(), room });
}

/// One that gives every build enough.
pub fn add_enough(limits: &mut Vec<Limit>, kind: &'static str, parts: &[&[u8]]) {
    add(limits, kind, parts, Room::Enough);
}

pub fn q() -> Vec<u8> {
    query_q().concat()
}

pub fn tree_for_q(kinds: &[u8]) -> Vec<u8> {
    kinds.iter().flat_map(|&kind| [kind, if kind == LEAF { 5 } else { 9 }]).collect()
}

fn shapes() -> Vec<Vec<u8>> {
    let mut random = Random::of(7, 7);
    let mut shapes = vec![left_comb(MOST_LEAVES), right_comb(MOST_LEAVES), balanced(MOST_LEAVES)];
    shapes.extend([30, 60].map(|joining| any_shape(&mut random, MOST_LEAVES, joining)));
    shapes
}

fn most_nodes(limits: &mut Vec<Limit>) {
    let kind = "limit: 4,095 nodes";
    let rooms = [Room::Enough, Room::Exact, Room::Long, Room::WorkShort, Room::TableShort];
    let of_pads = Labels { leaf: vec![PAD], ..labels_of_q() };
    for shape in shapes() {
        let pads = labelled(&mut Random::of(7, 7), &shape, &of_pads).concat();
        for branches in [true, false] {
            add(limits, kind, &[&pads, &places_seen(1, 16, &of_pads, branches).records().concat()], Room::Exact);
        }
        for room in rooms {
            add(limits, kind, &[&tree_for_q(&shape), &q()], room);
        }
        for (arity, branches) in [(1, true), (1, false), (2, false)] {
            let query = places_seen(arity, 16, &labels_of_q(), branches).records().concat();
            add(limits, kind, &[&tree_for_q(&shape), &query], Room::Exact);
        }
    }
}

fn too_many_nodes(limits: &mut Vec<Limit>) {
    let kind = "limit: a 4,096th tree kind";
    let tree = tree_for_q(&left_comb(MOST_LEAVES));
    // the 4,096th as it may be, or at fault itself: 2 before 1
    for last in [[LEAF, 5].as_slice(), &[BRANCH, 9], &[BRANCH, 64], &[LEAF, 64], &[LEAF], &[BRANCH], &[LEAF, 5, LEAF, 5]] {
        add_enough(limits, kind, &[&tree, last, &q()]);
        add_enough(limits, kind, &[&tree, last]);
    }
    for leaves in [4095, 4096, 4097] {
        add_enough(limits, kind, &[&[LEAF, 5].repeat(leaves), &q()]);
    }
    // the first record at fault decides
    for early in [[LEAF, 64], [BRANCH, 9]] {
        add_enough(limits, kind, &[&early, &tree, &[LEAF, 5], &q()]);
    }
    add_enough(limits, kind, &[&tree, &[LEAF, 5], &[HEAD, 9, 9]]);
    add_enough(limits, "limit: 4,095 nodes", &[&tree, &[HEAD, 9, 9]]);
    add_enough(limits, "limit: 4,095 nodes", &[&tree]);
}

fn most_work(limits: &mut Vec<Limit>) {
    let tree = tree_for_q(&right_comb(MOST_LEAVES));
    let query: &[u8] = &[HEAD, 4, 16, LEAF_RULE, 5, 0, 0, LEAF_RULE, 5, 15, 15, BRANCH_RULE, 9, 0, 0, 0, 0, ACCEPTING, 0];
    for room in [Room::Exact, Room::WorkShort, Room::Enough] {
        add(limits, "limit: most work", &[&tree, query], room);
    }
}

/// Rules with different left sides; those for label 9 come first, so that many of them match.
pub fn different_rules(count: usize) -> Vec<u8> {
    let leaf = (0..16).map(|flag| vec![LEAF_RULE, 5, flag, flag]);
    let branch = (0..).map(|n: usize| {
        let (right, left, flag, label) = (n % 16, n / 16 % 16, n / 256 % 16, 9 + n / 4096);
        vec![BRANCH_RULE, label as u8, flag as u8, left as u8, right as u8, ((left + right) % 16) as u8]
    });
    leaf.chain(branch).take(count).collect::<Vec<_>>().concat()
}

/// The most, and no leaf rule among them, for a label that no tree here has: no rules take more bytes.
pub fn branch_rules() -> Vec<u8> {
    let rule = |n: usize| [BRANCH_RULE, 10, (n / 256) as u8, (n / 16 % 16) as u8, (n % 16) as u8, 0];
    (0..MOST_RULES).flat_map(rule).collect()
}

fn rules(limits: &mut Vec<Limit>) {
    let kind = "limit: 1,024 and 1,025 rules";
    let head: &[u8] = &[HEAD, 4, 16];
    let accepting: &[u8] = &[ACCEPTING, 3, ACCEPTING, 15];
    for count in [1, 1023, 1024, 1025, 1026] {
        for tree in [TREE_A, TREE_B, TREE_C] {
            add_enough(limits, kind, &[tree, head, &different_rules(count), accepting]);
            add_enough(limits, kind, &[tree, head, accepting, &different_rules(count)]);
        }
    }
    let most = different_rules(MOST_RULES);
    // the 1,025th said twice, out of range or cut is 3; one said twice before it is 4
    let last: [&[u8]; 5] = [&[LEAF_RULE, 5, 0, 0], &[LEAF_RULE, 64, 0, 0], &[LEAF_RULE, 5, 16, 0], &[LEAF_RULE, 5], &[LEAF_RULE]];
    for last in last {
        add_enough(limits, kind, &[TREE_B, head, &most, last]);
        add_enough(limits, kind, &[TREE_B, head, &different_rules(MOST_RULES - 1), last, accepting]);
    }
    // behind 1,024 rules other records may still come
    for last in [[ACCEPTING, 3].as_slice(), &[ACCEPTING, 3, ACCEPTING, 3], &[HEAD, 4, 16], &[ACCEPTING, 16], &[ACCEPTING]] {
        add_enough(limits, kind, &[TREE_B, head, &most, last]);
    }
}

fn heads(limits: &mut Vec<Limit>) {
    let kind = "limit: arity and states";
    for arity in [0, 1, 2, 3, 4, 5, 255] {
        for states in [0, 1, 2, 15, 16, 17, 255] {
            add_enough(limits, kind, &[TREE_B, &[HEAD, arity, states]]);
            add_enough(limits, kind, &[TREE_B, &[HEAD, arity, states, ACCEPTING, 0]]);
            add_enough(limits, kind, &[TREE_B, &[HEAD, arity, states, LEAF_RULE, 5, 1, 0]]);
        }
    }
}

fn labels(limits: &mut Vec<Limit>) {
    let kind = "limit: labels";
    for label in [0, 62, 63, 64, 65, 255] {
        let query = &[HEAD, 1, 2, LEAF_RULE, label, 1, 1, BRANCH_RULE, label, 1, 1, 1, 1, ACCEPTING, 1];
        add_enough(limits, kind, &[&[LEAF, label], query]);
        add_enough(limits, kind, &[&[LEAF, 5, LEAF, 5, BRANCH, label], query]);
        add_enough(limits, kind, &[TREE_C, query]);
        add_enough(limits, kind, &[TREE_B, &[HEAD, 1, 2, BRANCH_RULE, label, 1, 1, 1, 1]]);
    }
}

fn flags(limits: &mut Vec<Limit>) {
    for arity in 1..=4 {
        let end = 1u8 << arity;
        for flag in [0, end - 1, end, 255] {
            for (leaf, branch) in [(5, 9), (PAD, PAD)] {
                for rule in [[LEAF_RULE, leaf, flag, 1].as_slice(), &[BRANCH_RULE, branch, flag, 0, 0, 1]] {
                    let tree = [LEAF, leaf, LEAF, leaf, BRANCH, branch];
                    add_enough(limits, "limit: flags", &[&tree, &[HEAD, arity, 2, LEAF_RULE, 6, 0, 0], rule, &[ACCEPTING, 1]]);
                }
            }
        }
    }
}

fn states(limits: &mut Vec<Limit>) {
    for end in [1, 2, 16] {
        for state in [0, end - 1, end, 255] {
            let head: &[u8] = &[HEAD, 2, end];
            let records: [&[u8]; 6] = [
                &[LEAF_RULE, 5, 1, state],
                &[LEAF_RULE, PAD, 1, state],
                &[BRANCH_RULE, 9, 1, state, 0, 0],
                &[BRANCH_RULE, 9, 1, 0, state, 0],
                &[BRANCH_RULE, 9, 1, 0, 0, state],
                &[ACCEPTING, state],
            ];
            for record in records {
                add_enough(limits, "limit: states", &[TREE_A, head, record]);
            }
        }
    }
}

fn kinds(limits: &mut Vec<Limit>) {
    let kind = "limit: kinds";
    for byte in [0, 1, 2, 3, 15, 16, 17, 18, 19, 20, 32, 255] {
        let body = &[byte, 1, 2, 1, 1, 1, 1];
        add_enough(limits, kind, &[body, &q()]);
        add_enough(limits, kind, &[TREE_B, body, &q()]);
        add_enough(limits, kind, &[TREE_B, &q(), body]);
        add_enough(limits, kind, &[TREE_B, &q(), &[byte]]);
        add_enough(limits, kind, &[TREE_B, &[byte]]);
        add_enough(limits, kind, &[&[byte]]);
    }
    // no rules, or no accepting state, gives the empty set
    add_enough(limits, kind, &[TREE_B, &[HEAD, 4, 16]]);
    add_enough(limits, kind, &[TREE_B, &[HEAD, 4, 16, ACCEPTING, 0, ACCEPTING, 15]]);
    let silent = q();
    add_enough(limits, kind, &[TREE_B, &silent[..silent.len() - 2]]);
    // a leaf and a branch of one label
    let same =
        [HEAD, 1, 2, LEAF_RULE, 5, 0, 0, LEAF_RULE, 5, 1, 1, BRANCH_RULE, 5, 0, 0, 1, 1, BRANCH_RULE, 5, 1, 0, 0, 1, ACCEPTING, 1];
    add_enough(limits, kind, &[&[LEAF, 5, LEAF, 5, BRANCH, 5], &same]);
}

fn orders(limits: &mut Vec<Limit>) {
    [5, PAD].into_iter().for_each(|label| orders_of(limits, label));
}

/// The first record at fault, the tree before the query, and in one record 3 before 4.
fn orders_of(limits: &mut Vec<Limit>, label: u8) {
    let kind = "limit: the order of refusals";
    let head: &[u8] = &[HEAD, 2, 4];
    let rule: &[u8] = &[LEAF_RULE, label, 1, 1];
    let again: &[u8] = &[LEAF_RULE, label, 1, 2];
    let wrong: &[u8] = &[LEAF_RULE, label, 1, 4];
    let accept: &[u8] = &[ACCEPTING, 1];
    let queries: [&[&[u8]]; 13] = [
        &[head, rule, again, wrong],
        &[head, rule, wrong, again],
        &[head, rule, wrong],
        &[head, rule, again],
        &[head, rule, rule],
        &[head, accept, accept, wrong],
        &[head, wrong, accept, accept],
        &[head, accept, rule, accept],
        &[head, rule, head, again],
        &[head, rule, again, head],
        &[head, &[BRANCH_RULE, 9, 0, 1, 2, 0, BRANCH_RULE, 9, 0, 2, 1, 0]],
        &[head, &[BRANCH_RULE, 9, 0, 1, 2, 0, BRANCH_RULE, 9, 0, 1, 2, 3]],
        // a leaf rule and a branch rule are different kinds
        &[head, rule, &[BRANCH_RULE, label, 1, 0, 0, 1]],
    ];
    let trees: [&[u8]; 4] = [&[LEAF, label, LEAF, label, BRANCH, 9], &[LEAF, label, LEAF, label], &[LEAF, 64], &[]];
    for query in queries {
        for tree in trees {
            add_enough(limits, kind, &[tree, &query.concat()]);
            add(limits, kind, &[tree, &query.concat()], Room::Of(0, 0));
        }
    }
}

/// B followed by Q, and a typed tree with a query that would mark its pads, cut after every byte.
fn cuts(limits: &mut Vec<Limit>) {
    let (b, typed) = ([TREE_B, &q()].concat(), pads_by_hand::TYPED.stream());
    for (kind, input) in [("limit: B and Q, cut everywhere", b), ("limit: a typed tree, cut everywhere", typed)] {
        for length in 0..=input.len() {
            add_enough(limits, kind, &[&input[..length]]);
        }
    }
}

/// Whatever is lent: 5 and 6 come behind 1 to 4.
fn positions(limits: &mut Vec<Limit>) {
    for refused in positions_by_hand::all() {
        for room in [Room::Of(0, 0), Room::Enough] {
            add(limits, "limit: positions by hand", &[&refused.input], room);
        }
    }
}

/// Document 01's P1, P3 and P10, and both buffers short at once.
fn short_buffers(limits: &mut Vec<Limit>) {
    let kind = "limit: work and table of A, B, C with Q";
    for (tree, work, made) in [(TREE_A, 48, 7), (TREE_B, 48, 13), (TREE_C, 32, 2)] {
        for work in [0, 1, work - 1, work, work + 1, work + 500] {
            for made in [0, 1, made - 1, made, made + 1, made + 500] {
                add(limits, kind, &[tree, &q()], Room::Of(work, made));
            }
        }
    }
    for (work, table) in [(0, 0), (9, 0), (0, 9), (9, 9)] {
        add(limits, "limit: empty input", &[], Room::Of(work, table));
    }
    // an answer that needs no record
    for work in [3, 4, 5] {
        add(limits, kind, &[TREE_C, &[HEAD, 1, 1, ACCEPTING, 0]], Room::Of(work, 0));
    }
}

/// Sixteen leaves, of which the one marked decides the root's state: at the end fifteen unions. Their labels begin behind that of pads,
/// and their branches have it.
fn all_states_accepting(limits: &mut Vec<Limit>) {
    let kind = "limit: 16 states accepting";
    let tree = |kinds: Vec<u8>| {
        let mut leaf = PAD;
        let mut label = |kind| {
            leaf += (kind == LEAF) as u8;
            if kind == LEAF {
                leaf
            } else {
                PAD
            }
        };
        kinds.into_iter().flat_map(|kind| [kind, label(kind)]).collect::<Vec<u8>>()
    };
    let mut query = Query::new(1, 16);
    for state in 0..16 {
        query.add(&[LEAF_RULE, PAD + 1 + state, 0], 0);
        query.add(&[LEAF_RULE, PAD + 1 + state, 1], state);
        query.add(&[BRANCH_RULE, PAD, 0, state, 0], state);
        query.add(&[BRANCH_RULE, PAD, 0, 0, state], state);
        query.accepting.insert(state);
    }
    for kinds in [left_comb(16), right_comb(16), balanced(16)] {
        for room in [Room::Exact, Room::TableShort, Room::WorkShort, Room::Long] {
            add(limits, kind, &[&tree(kinds.clone()), &query.records().concat()], room);
        }
    }
}

/// A stream whose build makes just so many records: a comb of which each leaf but the first adds 38 (7 singles, 12 products and
/// 19 unions), and at its end leaves that add 7 singles or one, in a state that no other rule knows.
pub fn making(count: usize) -> Vec<u8> {
    let labels = labels_of_q();
    let mut query = places_seen(3, 9, &labels, false);
    let (seven, one) = (7, 10);
    for label in [seven, one] {
        query.add(&[LEAF_RULE, label, 0], 0);
        for flag in 1..if label == seven { 8 } else { 2 } {
            query.add(&[LEAF_RULE, label, flag], 8);
        }
    }
    let (leaves, more) = (1 + (count - 7) / 38, (count - 7) % 38);
    let mut tree = tree_for_q(&left_comb(leaves));
    for label in [vec![seven; more / 7], vec![one; more % 7]].concat() {
        tree.extend([LEAF, label, BRANCH, 9]);
    }
    let input = [tree, query.records().concat()].concat();
    let made = records::needs(&input).expect("a valid stream").records;
    assert_eq!(made, Some(count).filter(|&count| count <= 60_000), "records made");
    input
}

fn most_records(limits: &mut Vec<Limit>) {
    let kind = "limit: 60,000 records";
    for count in [59_999, 60_000, 60_001, 60_038] {
        let input = making(count);
        let work = records::needs(&input).expect("a valid stream").work;
        for table in [59_999, 60_000, 60_001, 65_536, 70_000] {
            add(limits, kind, &[&input], Room::Of(work, table));
        }
        add(limits, kind, &[&input], Room::Of(work - 1, 70_000));
    }
    // far more than fit
    let query = places_seen(4, 16, &labels_of_q(), true).records().concat();
    let input = [tree_for_q(&balanced(MOST_LEAVES)), query].concat();
    let work = records::needs(&input).expect("a valid stream").work;
    for table in [0, 1, 60_000, 66_000] {
        add(limits, kind, &[&input], Room::Of(work, table));
    }
}

/// A small tree and any rules, as many as may be or a few more.
pub fn many_rules(kind: &'static str, random: &mut Random) -> Case {
    let labels = Labels { leaf: vec![PAD, 5, 9], branch: vec![PAD, 9, 63] };
    let kinds = any_shape(random, 4, 50);
    let tree = labelled(random, &kinds, &labels);
    let mut query = Query::new(random.between(3, 4), 16);
    let count = random.between(MOST_RULES - 4, MOST_RULES + 4);
    while query.rules.len() < count.min(MOST_RULES) {
        query.add_any_rule(random, &labels);
    }
    query.accepting.extend([0, 7, 15]);
    let mut records = query.shuffled(random);
    // beyond 1,024: a left side that is not there, or one said again
    for _ in MOST_RULES..count {
        let flag = random.below(8) as u8;
        let rule = if random.chance(80) { vec![BRANCH_RULE, 1, flag, 3, 3, 3] } else { records[1].clone() };
        records.insert(random.between(1, records.len()), rule);
    }
    let input = Stream { tree, query: records }.bytes();
    lend(random, kind, input, Room::Enough, LONGEST_TABLE)
}
