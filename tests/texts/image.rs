//! Nodes to tree records and back: the first child left, the next sibling right, and a pad where there is none.

use crate::{Node, LABELS};

const LEAF: u8 = 1;
const BRANCH: u8 = 2;
const PAD: [u8; 2] = [LEAF, 0];

pub fn records_of(root: &Node) -> Vec<u8> {
    let mut records = Vec::new();
    add(std::slice::from_ref(root), &mut records);
    records
}

/// The first of the siblings with all behind it, as one subtree.
fn add(siblings: &[Node], records: &mut Vec<u8>) {
    match siblings.split_first() {
        None => records.extend(PAD),
        Some((first, next)) => {
            add(&first.children, records);
            add(next, records);
            records.extend([BRANCH, first.label]);
        }
    }
}

/// The root of an image; none where the bytes are not wholly one, but for the number of nodes.
pub fn root_of(bytes: &[u8]) -> Option<Node> {
    let records = bytes.chunks_exact(2);
    if !records.remainder().is_empty() {
        return None;
    }
    let mut records: Vec<&[u8]> = records.collect();
    let mut roots = last_first(&mut records)?;
    let root = roots.pop()?;
    (roots.is_empty() && records.is_empty()).then(|| root)
}

/// Takes one subtree from the end of the records: in postfix its branch stands last, before it the next siblings, before these the
/// children. The siblings come last first.
fn last_first(records: &mut Vec<&[u8]>) -> Option<Vec<Node>> {
    match *records.pop()? {
        [BRANCH, label] if label < LABELS => {
            let mut siblings = last_first(records)?;
            let mut children = last_first(records)?;
            children.reverse();
            siblings.push(Node { label, children });
            Some(siblings)
        }
        [kind, label] if [kind, label] == PAD => Some(Vec::new()),
        _ => None,
    }
}
