//! The streams that go through the listing program: random ones, those of the library's limits, the real ones, and the program's own
//! limits: an input of 16,384 bytes, a work of 16,384 numbers, a table of 2,000 records, a text that fills its buffer.

use crate::damage::{any_bytes, any_damage, byte_changed, byte_dropped, byte_put_in, cut, record_moved, Damage};
use crate::limits::{self, branch_rules, different_rules, making, q, tree_for_q, TREE_B};
use crate::numbered::{Kinds, Numbered};
use crate::random::Random;
use crate::real;
use crate::streams::{
    any_places_seen, any_shape, any_valid, any_with_q, balanced, dense, grown, labelled, labels_of_q, large, leaves_all_pads,
    left_comb, one_label, one_pad, places_seen, right_comb, some_pads, Query, Stream, ACCEPTING, BRANCH, BRANCH_RULE, HEAD, LEAF,
    LEAF_RULE, MOST_LEAVES, MOST_RULES, PAD,
};
use std::collections::HashSet;

const MOST_INPUT: usize = 16_384;
const WORK: usize = 16_384;
const TABLE: usize = 2_000;

/// The program writes its text when a line might not fit into a buffer of so many bytes.
pub const BUFFER: usize = 65_536;

pub struct Listing {
    pub kind: &'static str,
    pub input: Vec<u8>,
    /// So many bytes of it come at a time.
    pub piece: usize,
}

/// Each kind of random case, with how many there are.
const RANDOM: &Kinds<Listing> = &[
    (500, |r| whole("rules grown along rows", r, grown)),
    (300, |r| whole("most left sides have a rule", r, dense)),
    (100, |r| whole("states are the places seen", r, any_places_seen)),
    (100, |r| whole("query Q", r, any_with_q)),
    (50, |r| whole("some leaves are pads", r, some_pads)),
    (50, |r| whole("all leaves are pads", r, leaves_all_pads)),
    (30, |r| whole("no label but 0", r, one_label)),
    (20, |r| whole("the tree is one pad", r, one_pad)),
    (100, |r| whole("many rows", r, many_rows)),
    (250, |r| damaged("a byte changed", r, any_valid, byte_changed)),
    (150, |r| damaged("cut", r, any_valid, cut)),
    (150, |r| damaged("a byte dropped", r, any_valid, byte_dropped)),
    (150, |r| damaged("a byte put in", r, any_valid, byte_put_in)),
    (150, |r| damaged("a record moved or said again", r, any_valid, record_moved)),
    (50, |r| Listing::of("any bytes", r, any_bytes)),
    (150, |r| damaged("any damage in a large stream", r, large, any_damage)),
];

/// A kind and its input.
type Limit = (&'static str, Vec<u8>);

pub type Listings = Numbered<Listing, Limit>;

pub fn all(seed: u64) -> Listings {
    let mut all = Vec::new();
    library_limits(&mut all);
    lengths(&mut all);
    longest_streams(&mut all);
    most_work(&mut all);
    most_records(&mut all);
    full_buffers(&mut all);
    // of the larger ones the program says only that they make more records than it has room for
    all.extend(fortran::pairs().into_iter().map(|pair| (real::KIND, pair.input)));
    Numbered::of(seed, RANDOM, all, |random, (kind, input)| Listing::of(kind, random, |_| input.clone()))
}

impl Listing {
    fn of(kind: &'static str, random: &mut Random, make: impl Fn(&mut Random) -> Vec<u8>) -> Listing {
        let input = make(random);
        Listing { kind, input, piece: random.pick(&[1, 5, 500, MOST_INPUT, MOST_INPUT, 2 * MOST_INPUT]) }
    }
}

fn whole(kind: &'static str, random: &mut Random, make: fn(&mut Random) -> Stream) -> Listing {
    Listing::of(kind, random, |random| make(random).bytes())
}

fn damaged(kind: &'static str, random: &mut Random, make: fn(&mut Random) -> Stream, damage: Damage) -> Listing {
    Listing::of(kind, random, |random| {
        let stream = make(random);
        damage(random, &stream)
    })
}

/// So many leaves that the records fill the table, or nearly, or are a few too many; where half of them are pads, about half of it.
fn many_rows(random: &mut Random) -> Stream {
    let (arity, mut labels) = (random.between(1, 4), labels_of_q());
    if random.chance(30) {
        labels.leaf.push(PAD);
    }
    let leaves = random.between(1, [1_010, 160, 55, 18][arity - 1]);
    let joining = random.pick(&[20, 50, 80, 100]);
    let kinds = any_shape(random, leaves, joining);
    let tree = labelled(random, &kinds, &labels);
    Stream { tree, query: places_seen(arity, 1 << arity, &labels, random.chance(20)).shuffled(random) }
}

// ---- limits

/// The library's, each input once: with other buffers the program's answer is the same.
fn library_limits(all: &mut Vec<Limit>) {
    let mut seen = HashSet::new();
    all.extend(limits::all().into_iter().filter(|limit| seen.insert(limit.input.clone())).map(|limit| (limit.kind, limit.input)));
}

/// Refused 1, 2, 3 and 4 up to 16,384 bytes, and 14 beyond, before all. No stream that is not refused is so long.
fn lengths(all: &mut Vec<Limit>) {
    let valid = [TREE_B, &q()].concat();
    let again: &[u8] = &[ACCEPTING, 2];
    let faults: [(&[u8], &[u8]); 5] = [(&[LEAF, 64], &[0]), (&[], &[LEAF, 5]), (&valid, &[0]), (&valid, again), (TREE_B, &[HEAD])];
    for length in [MOST_INPUT - 1, MOST_INPUT, MOST_INPUT + 1, MOST_INPUT + 2, 20_000, 40_000] {
        for (start, more) in faults {
            let input = start.iter().chain(more.iter().cycle()).take(length).copied().collect();
            all.push(("limit: 16,384 bytes and more", input));
        }
    }
}

/// 4,095 nodes, 1,024 rules and 16 accepting states: with branch rules alone no stream is longer.
fn longest_streams(all: &mut Vec<Limit>) {
    let mut tree = tree_for_q(&balanced(MOST_LEAVES));
    let rules = branch_rules();
    let accepting: Vec<u8> = (0..16).flat_map(|state| [ACCEPTING, state]).collect();
    let longest = [&tree, [HEAD, 4, 16].as_slice(), &rules, &accepting].concat();
    assert_eq!(longest.len(), 14_369, "the longest stream");
    all.push(("limit: the longest streams", longest));
    // one leaf may be marked, at all places
    tree[1] = 6;
    let own = [LEAF_RULE, 5, 0, 0, LEAF_RULE, 6, 15, 1, BRANCH_RULE, 9, 0, 0, 0, 0, BRANCH_RULE, 9, 0, 1, 0, 1];
    let fewer = &rules[4 * 6..];
    all.push(("limit: the longest streams", [&tree, [HEAD, 4, 16].as_slice(), fewer, &own, &accepting].concat()));
    all.push(("limit: the longest streams", [&tree, [HEAD, 4, 16].as_slice(), &different_rules(MOST_RULES), &accepting].concat()));
}

/// All leaves unjoined at first: the last number of them that the work is enough for, and the first that it is not.
fn most_work(all: &mut Vec<Limit>) {
    for (arity, states) in (1..=4).flat_map(|arity| [2, 3, 15, 16].map(|states| (arity, states))) {
        let enough = WORK / (states << arity) - 1;
        for leaves in [enough - 1, enough, enough + 1].into_iter().filter(|&leaves| leaves <= MOST_LEAVES) {
            let tree: Vec<u8> = right_comb(leaves).into_iter().enumerate().flat_map(leaf_at_times).collect();
            all.push(("limit: work of 16,384", [tree, one_leaf(arity, states)].concat()));
        }
    }
}

/// Every fifth leaf has label 6, so that few records are made.
fn leaf_at_times((node, kind): (usize, u8)) -> [u8; 2] {
    [kind, if kind == BRANCH { 9 } else { 5 + (node % 5 == 0) as u8 }]
}

/// One leaf of label 6 at all places.
fn one_leaf(arity: usize, states: usize) -> Vec<u8> {
    let mut query = Query::new(arity, states);
    let all = query.flags() - 1;
    for (label, flag, state) in [(5, 0, 0), (6, 0, 0), (6, all, 1)] {
        query.add(&[LEAF_RULE, label, flag], state);
    }
    for (left, right) in [(0, 0), (0, 1), (1, 0)] {
        query.add(&[BRANCH_RULE, 9, 0, left, right], left + right);
    }
    query.accepting.insert(1);
    query.records().concat()
}

fn most_records(all: &mut Vec<Limit>) {
    for count in [TABLE - 1, TABLE, TABLE + 1, TABLE + 38] {
        all.push(("limit: 2,000 records", making(count)));
    }
}

/// Listings that end near where the buffer is full for the first time, the second or the third. A line is written into it only if
/// any line would fit, so that up to 84 bytes of it stay free.
fn full_buffers(all: &mut Vec<Limit>) {
    let ends = |bytes: usize| (1..=3).any(|time| (time * (BUFFER - 90)..time * BUFFER + 90).contains(&bytes));
    // few, since the program goes over all of them for each row
    let (widths, most_records) = (Widths::new(), 900);
    for (first, second) in (1..most_records).flat_map(|first| (1..most_records).map(move |second| (first, second))) {
        let bytes = widths.listing(first, second);
        if 2 * first + 4 * second - 3 <= most_records && ends(bytes) {
            let input = pairs(first, second);
            assert_eq!(records::listing::listing(&input, usize::MAX).map(|text| text.len()), Some(bytes), "bytes listed");
            all.push(("limit: a text that fills the buffer", input));
        }
    }
}

/// All pairs of one of the first leaves and one of the second: so many of each in a comb.
fn pairs(first: usize, second: usize) -> Vec<u8> {
    let mut leaf = 0;
    let mut label = |kind: u8| {
        leaf += (kind == LEAF) as usize;
        [kind, if kind == BRANCH { 9 } else { 5 + (leaf > first) as u8 }]
    };
    let tree: Vec<u8> = left_comb(first + second).into_iter().flat_map(&mut label).collect();
    let mut query = Query::new(2, 1);
    for side in [[LEAF_RULE, 5, 0], [LEAF_RULE, 5, 1], [LEAF_RULE, 6, 0], [LEAF_RULE, 6, 2]] {
        query.add(&side, 0);
    }
    query.add(&[BRANCH_RULE, 9, 0, 0, 0], 0);
    query.accepting.insert(0);
    [tree, query.records().concat()].concat()
}

/// The bytes of the first leaves' numbers in a comb, each with the space or the line's end behind it, added up.
struct Widths(Vec<usize>);

impl Widths {
    fn new() -> Widths {
        let mut widths = vec![0];
        for node in (0..MOST_LEAVES).map(|leaf| (2 * leaf).saturating_sub(1)) {
            widths.push(widths[widths.len() - 1] + format!("{node} ").len());
        }
        Widths(widths)
    }

    /// The bytes of the listing of `pairs`.
    fn listing(&self, first: usize, second: usize) -> usize {
        let facts = format!("records {}\nrows {}\n", 2 * first + 4 * second - 3, first * second);
        facts.len() + second * self.0[first] + first * (self.0[first + second] - self.0[first])
    }
}
