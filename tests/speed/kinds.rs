//! The kinds of a stream's records, and the label of a pad.

pub const LEAF: u8 = 1;
pub const BRANCH: u8 = 2;
pub const HEAD: u8 = 16;
pub const LEAF_RULE: u8 = 17;
pub const BRANCH_RULE: u8 = 18;
pub const ACCEPTING: u8 = 19;

/// A leaf of this label stands in no row.
pub const PAD: u8 = 0;
