//! Request 2026-02, 'Pads turn up in rows', sentence by sentence: streams whose records and rows were worked out from it and from
//! document 01 by hand, streams that are refused as before, and questions on the set of a typed tree.

use crate::by_hand::{ask, fix, Worked};
use crate::positions_by_hand::is_refused;
use crate::tally::Tally;
use crate::verdict::{same, Verdict};
use records::Set;

/// The text `9(5 6)`: pads 0, 1, 2, branch 6 as node 3 on 1 and 2, branch 5 as node 4 on 0 and 3, pad 5, branch 9 as node 6 on 4 and 5.
/// In state 1 a node is marked, and the query has every rule that marks one, a pad's too.
///
/// A pad makes no record: unit stands in its slot (0, 0), and nothing in state 1. Node 3: its last rule makes record 0. Node 4: the one
/// marked behind it is record 0, itself record 1, both united record 2. Node 6: the one marked among its children is record 2, itself
/// record 3, both united record 4, the set. So it lists 3, then 4, then 6.
#[rustfmt::skip]
pub const TYPED: Worked = Worked {
    tree: &[1, 0, 1, 0, 1, 0, 2, 6, 2, 5, 1, 0, 2, 9],
    query: &[
        16, 1, 2,
        17, 0, 0, 0, 17, 0, 1, 1,
        18, 5, 0, 0, 0, 0, 18, 5, 0, 1, 0, 1, 18, 5, 0, 0, 1, 1, 18, 5, 1, 0, 0, 1,
        18, 6, 0, 0, 0, 0, 18, 6, 0, 1, 0, 1, 18, 6, 0, 0, 1, 1, 18, 6, 1, 0, 0, 1,
        18, 9, 0, 0, 0, 0, 18, 9, 0, 1, 0, 1, 18, 9, 0, 0, 1, 1, 18, 9, 1, 0, 0, 1,
        19, 1,
    ],
    made: &[[1, 3, 0, 0, 1], [1, 4, 0, 0, 1], [2, 4, 0, 1, 1], [1, 6, 0, 0, 1], [2, 6, 2, 3, 1]],
    rows: &[&[3], &[4], &[6]],
};

/// Pad 0 and leaf 1 of label 5 under branch 2.
const PAD_AND_LEAF: &[u8] = &[1, 0, 1, 5, 2, 9];

#[rustfmt::skip]
const WORKED: &[(&str, Worked)] = &[
    ("a typed tree", TYPED),
    // the branch is marked by its own rule, and the rule for a leaf of its label has no leaf
    ("a branch of label 0 is no pad", Worked {
        tree: &[1, 5, 1, 5, 2, 0],
        query: &[16, 1, 2, 17, 5, 0, 0, 17, 0, 1, 1, 18, 0, 1, 0, 0, 1, 19, 1],
        made: &[[1, 2, 0, 0, 1]],
        rows: &[&[2]],
    }),
    // two rules want a pad marked on one side, where state 1 has nothing; the third marks the branch
    ("no label but 0", Worked {
        tree: &[1, 0, 1, 0, 2, 0],
        query: &[16, 1, 2, 17, 0, 0, 0, 17, 0, 1, 1, 18, 0, 0, 1, 0, 1, 18, 0, 0, 0, 1, 1, 18, 0, 1, 0, 0, 1, 19, 1],
        made: &[[1, 2, 0, 0, 1]],
        rows: &[&[2]],
    }),
    // its one row would name it, and no other node is there
    ("one pad with a rule that would mark it", Worked {
        tree: ONE_PAD, query: &[16, 1, 1, 17, 0, 1, 0, 19, 0], made: &[], rows: &[],
    }),
    // unit stands in slot (0, 0), and the answer is of slot (0, 1)
    ("one pad with a rule that does not", Worked {
        tree: ONE_PAD, query: &[16, 1, 1, 17, 0, 0, 0, 19, 0], made: &[], rows: &[],
    }),
    ("one pad with both, of four places", Worked {
        tree: ONE_PAD, query: &[16, 4, 2, 17, 0, 0, 0, 17, 0, 15, 1, 19, 0, 19, 1], made: &[], rows: &[],
    }),
    // the leaf is marked beside the pad, which is in state 0; the pad is not marked beside the leaf
    ("a pad has its state by its rule with flag 0", Worked {
        tree: PAD_AND_LEAF,
        query: &[16, 1, 2, 17, 0, 0, 0, 17, 0, 1, 1, 17, 5, 0, 0, 17, 5, 1, 1, 18, 9, 0, 0, 1, 1, 18, 9, 0, 1, 0, 1, 19, 1],
        made: &[[1, 1, 0, 0, 1]],
        rows: &[&[1]],
    }),
    // the leaf's single is made, and no run goes on from the pad
    ("a pad with no such rule ends every run", Worked {
        tree: PAD_AND_LEAF,
        query: &[16, 1, 2, 17, 0, 1, 1, 17, 5, 0, 0, 17, 5, 1, 1, 18, 9, 0, 0, 1, 1, 18, 9, 0, 1, 0, 1, 19, 1],
        made: &[[1, 1, 0, 0, 1]],
        rows: &[],
    }),
    // states are the places seen: of (1, 1), (0, 0), (0, 1) and (1, 0) only the first names no pad
    ("a row that names a pad at one place of two", Worked {
        tree: PAD_AND_LEAF,
        query: &[
            16, 2, 4, 17, 0, 0, 0, 17, 0, 1, 1, 17, 0, 2, 2, 17, 0, 3, 3, 17, 5, 0, 0, 17, 5, 1, 1, 17, 5, 2, 2, 17, 5, 3, 3,
            18, 9, 0, 0, 3, 3, 18, 9, 0, 3, 0, 3, 18, 9, 0, 1, 2, 3, 18, 9, 0, 2, 1, 3, 19, 3,
        ],
        made: &[[1, 1, 0, 0, 1], [1, 1, 0, 0, 2], [1, 1, 0, 0, 3]],
        rows: &[&[1, 1]],
    }),
    // the branch with its left pad: the split is skipped, and no single of the branch is made for it; then the branch at both places
    ("a branch beside a pad that would be marked", Worked {
        tree: &[1, 0, 1, 0, 2, 9],
        query: &[16, 2, 2, 17, 0, 0, 0, 17, 0, 2, 1, 18, 9, 1, 1, 0, 1, 18, 9, 3, 0, 0, 1, 19, 1],
        made: &[[1, 2, 0, 0, 3]],
        rows: &[&[2, 2]],
    }),
];

/// Queries on one pad, with the number and the position, the pad's 2 bytes before them: rules that are never used are still read, tested
/// and counted.
#[rustfmt::skip]
const REFUSED: &[(&str, &[u8], u8, usize)] = &[
    ("said twice", &[16, 1, 1, 17, 0, 1, 0, 17, 0, 1, 0], 4, 9),
    ("said twice with another state", &[16, 1, 2, 17, 0, 1, 0, 17, 0, 0, 0, 17, 0, 1, 1], 4, 13),
    ("a flag out of range", &[16, 1, 1, 17, 0, 2, 0], 3, 5),
    ("a state out of range", &[16, 1, 1, 17, 0, 1, 1], 3, 5),
    ("said twice, and a state out of range", &[16, 1, 1, 17, 0, 1, 0, 17, 0, 1, 1], 3, 9),
    ("cut behind its flag", &[16, 1, 1, 17, 0, 1], 3, 5),
    ("cut behind its label", &[16, 1, 1, 17, 0], 3, 5),
    ("before the head", &[17, 0, 1, 0, 16, 1, 1], 3, 2),
];

pub const ONE_PAD: &[u8] = &[1, 0];

pub fn check_all(tally: &mut Tally) {
    let kind = "pads by hand";
    for (what, worked) in WORKED {
        tally.own(kind, what, worked.check());
    }
    for (what, query, number, position) in REFUSED {
        tally.own(kind, what, is_refused(&[ONE_PAD, query].concat(), *number, *position));
    }
    tally.own(kind, "questions on a typed tree", questions());
}

/// All of them, for the library and for the listing program.
pub fn streams() -> Vec<Vec<u8>> {
    let worked = WORKED.iter().map(|(_, worked)| worked.stream());
    worked.chain(REFUSED.iter().map(|(_, query, ..)| [ONE_PAD, query].concat())).collect()
}

/// A pad is a node of the tree, so it may be asked for; and it stands nowhere.
fn questions() -> Verdict {
    let set = TYPED.set();
    let listed = [0, 1, 2, 3, 4, 5, 6].map(|node| ask(&set, |set| set.member(&[node]).answer));
    same("members", listed, [false, false, false, true, true, false, true].map(Ok))?;
    let projected = ask(&set, |set| set.project(1, &[7; 8]));
    same("marks", (projected.answer, projected.lent), (Ok(()), vec![0, 0, 0, 1, 1, 0, 1, 7]))?;
    for (node, fixed) in [(0, Set::Empty), (1, Set::Empty), (2, Set::Empty), (4, Set::Unit), (5, Set::Empty)] {
        same("fixed", fix(&set, 1, node).map(|(head, _)| head.set), Ok(fixed))?;
    }
    Ok(())
}
