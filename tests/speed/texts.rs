//! Times both conversions on written trees of 2,047 nodes: the library, and the ordinary program with a tree of nodes (nodes.rs).

use crate::nodes;
use crate::random::Random;
use crate::times::{print_line, print_titles, Times, LIBRARY, ORDINARY};
use crate::TURNS;

const NODES: usize = 2_047;

/// Of so many nodes no image and no text as the way back writes it is longer.
const MOST_BYTES: usize = 4 * NODES + 2;

pub fn time_all() {
    print_titles("bracketed texts", &["ordinary"]);
    for (name, text) in texts() {
        let tree = nodes::text_to_tree(&text).expect("a written tree");
        let name = format!("{NODES} written nodes, {name}");
        print_line(&name, "text to tree", text_to_tree(&text).medians());
        print_line(&name, "tree to text", tree_to_text(&tree).medians());
    }
}

fn text_to_tree(text: &[u8]) -> Times {
    let (mut times, mut tree) = (Times::of_single_calls(), [0; MOST_BYTES]);
    for _ in 0..TURNS {
        let written = times.of(LIBRARY, || tarnsatchel::text_to_tree(text, &mut tree));
        let ordinary = times.of(ORDINARY, || nodes::text_to_tree(text)).expect("a written tree");
        assert!(written == Ok(ordinary.len()) && tree.starts_with(&ordinary), "the same tree");
    }
    times
}

fn tree_to_text(tree: &[u8]) -> Times {
    let (mut times, mut text) = (Times::of_single_calls(), [0; MOST_BYTES]);
    for _ in 0..TURNS {
        let written = times.of(LIBRARY, || tarnsatchel::tree_to_text(tree, &mut text));
        let ordinary = times.of(ORDINARY, || nodes::tree_to_text(tree)).expect("an image");
        assert!(written == Ok(ordinary.len()) && text.starts_with(ordinary.as_bytes()), "the same text");
    }
    times
}

// ---- the texts

fn texts() -> Vec<(&'static str, Vec<u8>)> {
    let mut random = Random(2026);
    let row: Vec<usize> = (0..NODES).map(|node| node.min(1)).collect();
    let depth: Vec<usize> = (0..NODES).collect();
    let mixed = mixed(&mut random);
    vec![
        ("a row", text_of(&row, &mut random, |_| "")),
        ("depth", text_of(&depth, &mut random, |_| "")),
        ("mixed", text_of(&mixed, &mut random, |_| "")),
        ("typed", text_of(&mixed, &mut random, typed)),
    ]
}

/// The depths of the nodes in the text's order: a child, a sibling, or a sibling of one above.
fn mixed(random: &mut Random) -> Vec<usize> {
    let mut depths: Vec<usize> = vec![0];
    while depths.len() < NODES {
        let before = depths[depths.len() - 1];
        depths.push(match random.below(10) {
            0..=3 => before + 1,
            4..=7 => before.max(1),
            _ => before.saturating_sub(1 + random.below(4)).max(1),
        });
    }
    depths
}

/// Labels of one digit and of two; `behind` says what stands behind a number.
fn text_of(depths: &[usize], random: &mut Random, behind: fn(&mut Random) -> &'static str) -> Vec<u8> {
    let (mut text, mut before) = (String::new(), 0);
    for &depth in depths {
        let brackets = if depth > before { "(".to_string() } else { ")".repeat(before - depth) };
        text += if depth == before && !text.is_empty() { " " } else { &brackets };
        text += &random.below(64).to_string();
        text += behind(random);
        before = depth;
    }
    text += &")".repeat(before);
    text.into_bytes()
}

/// Lines that are indented, with a comment now and then.
fn typed(random: &mut Random) -> &'static str {
    ["", "\n    ", "\n        ", " ", " ! title // ' in '\n    "][random.below(5)]
}
