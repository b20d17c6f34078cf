//! Cases at the limits of request 2026-02: rules for pads that are never used are read, tested and counted like others; of a pad no
//! record is made and no row told, whatever flag its rules have.

use crate::cases::Room;
use crate::limits::{add, add_enough, different_rules, Limit, TREE_A};
use crate::pads_by_hand::{streams, ONE_PAD};
use crate::streams::{ACCEPTING, HEAD, LEAF_RULE, MOST_RULES, PAD};

/// Document 01's tree B with pads in the place of two leaves.
const TREE_OF_PADS: &[u8] = &[1, 0, 1, 5, 2, 9, 1, 0, 2, 9];

/// The most that a query may have, and the first flag and the first state that are out of range with them.
const ARITY: u8 = 4;
const STATES: u8 = 16;
const FLAGS: u8 = 1 << ARITY;

pub fn add_all(limits: &mut Vec<Limit>) {
    most_rules(limits);
    one_pad(limits);
    by_hand(limits);
}

/// All leaf rules for pads, of which those with a flag above 0 are never used.
fn rules_for_pads() -> Vec<u8> {
    (0..FLAGS).flat_map(|flag| [LEAF_RULE, PAD, flag, flag]).collect()
}

/// They count among the 1,024, before the others or behind them, and also where no other passes that number.
fn most_rules(limits: &mut Vec<Limit>) {
    let kind = "limit: 1,025 rules, those for pads too";
    let (head, accepting): (&[u8], &[u8]) = (&[HEAD, ARITY, STATES], &[ACCEPTING, 3, ACCEPTING, 15]);
    let for_pads = rules_for_pads();
    let room = MOST_RULES - FLAGS as usize;
    for others in [room - 1, room, room + 1] {
        for tree in [TREE_A, TREE_OF_PADS] {
            add_enough(limits, kind, &[tree, head, &for_pads, &different_rules(others), accepting]);
            add_enough(limits, kind, &[tree, head, accepting, &different_rules(others), &for_pads]);
        }
    }
    // as it may be, with a flag, a state or a label out of range, and cut
    let bodies: [&[u8]; 6] = [&[PAD, 1, 1], &[PAD, FLAGS, 1], &[PAD, 1, STATES], &[64, 1, 1], &[PAD, 1], &[PAD]];
    for last in bodies.map(|body| [&[LEAF_RULE], body].concat()) {
        // the 1,025th, by others and by those for pads; the 1,024th; one that was said before; the first
        add_enough(limits, kind, &[TREE_OF_PADS, head, &different_rules(MOST_RULES), &last]);
        add_enough(limits, kind, &[TREE_OF_PADS, head, &for_pads, &different_rules(room), &last]);
        add_enough(limits, kind, &[TREE_OF_PADS, head, &different_rules(MOST_RULES - 1), &last]);
        add_enough(limits, kind, &[TREE_OF_PADS, head, &for_pads, &last]);
        add_enough(limits, kind, &[TREE_OF_PADS, head, &last]);
    }
}

/// With every flag of every arity, alone and beside flag 0, which may be said twice then: no row and no record, so that no table is
/// asked for.
fn one_pad(limits: &mut Vec<Limit>) {
    for (arity, flag) in (1..=ARITY).flat_map(|arity| (0..1 << arity).map(move |flag| (arity, flag))) {
        for beside in [&[][..], &[LEAF_RULE, PAD, 0, 0]] {
            let query = [HEAD, arity, 2, LEAF_RULE, PAD, flag, 1, ACCEPTING, 0, ACCEPTING, 1];
            add(limits, "limit: one pad", &[ONE_PAD, &query, beside], Room::Exact);
        }
    }
}

/// With tables that suffice, and one short where there is a record: none is made for a pad.
fn by_hand(limits: &mut Vec<Limit>) {
    for stream in streams() {
        for room in [Room::Enough, Room::Exact, Room::TableShort, Room::WorkShort, Room::Long] {
            add(limits, "limit: pads by hand", &[&stream], room);
        }
    }
}
