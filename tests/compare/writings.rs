//! Makes written trees, and their texts with blanks, line ends, comments and empty brackets wherever they may stand.

use crate::random::Random;

/// The nodes in the text's order, each with the number of brackets around it. There is no tree here: a text shows no more.
pub struct Written(pub Vec<Node>);

#[derive(Clone, Copy)]
pub struct Node {
    pub depth: usize,
    pub label: u8,
}

/// At most so many are written.
pub const MOST_NODES: usize = 2_047;

/// A number or one bracket.
pub type Word = Vec<u8>;

// ---- shapes

/// The root, and all others its children.
pub fn row(nodes: usize) -> Vec<usize> {
    (0..nodes).map(|node| node.min(1)).collect()
}

/// Each the child of the one before.
pub fn chain(nodes: usize) -> Vec<usize> {
    (0..nodes).collect()
}

/// As often as `deeper` in a hundred the first child of the one before, else the next child of it or of one above it.
pub fn any_depths(random: &mut Random, nodes: usize, deeper: usize) -> Vec<usize> {
    let mut depths = vec![0];
    while depths.len() < nodes {
        let before = depths[depths.len() - 1];
        // the next sibling more often than any far above, so that rows grow too
        let beside = if random.chance(50) { before } else { random.between(0, before) };
        depths.push(if before == 0 || random.chance(deeper) { before + 1 } else { beside.max(1) });
    }
    depths
}

impl Written {
    pub fn labelled(depths: &[usize], mut label: impl FnMut() -> u8) -> Written {
        Written(depths.iter().map(|&depth| Node { depth, label: label() }).collect())
    }

    pub fn any(random: &mut Random, depths: &[usize]) -> Written {
        Written::labelled(depths, || any_label(random))
    }

    /// Mostly of few nodes.
    pub fn small(random: &mut Random) -> Written {
        let most = random.pick(&[1, 3, 6, 12, 12, 40]);
        let (nodes, deeper) = (random.between(1, most), random.pick(&[10, 30, 50, 80]));
        let depths = any_depths(random, nodes, deeper);
        Written::any(random, &depths)
    }

    pub fn large(random: &mut Random) -> Written {
        let (nodes, deeper) = (random.between(MOST_NODES / 2, MOST_NODES), random.pick(&[2, 20, 50, 70, 98]));
        let depths = any_depths(random, nodes, deeper);
        Written::any(random, &depths)
    }

    /// A node deeper than the one before stands behind an opening bracket, one less deep behind closing ones.
    pub fn words(&self) -> Vec<Word> {
        let (mut words, mut depth) = (Vec::new(), 0);
        for node in &self.0 {
            words.extend((depth..node.depth).map(|_| b"(".to_vec()));
            words.extend((node.depth..depth).map(|_| b")".to_vec()));
            words.push(node.label.to_string().into_bytes());
            depth = node.depth;
        }
        words.extend((0..depth).map(|_| b")".to_vec()));
        words
    }

    /// With nothing in it that is not needed.
    pub fn text(&self) -> Vec<u8> {
        joined(&self.words(), |separates| if separates { b" ".to_vec() } else { Vec::new() })
    }

    /// With blanks, line ends, comments and empty brackets in it.
    pub fn spaced(&self, random: &mut Random) -> Vec<u8> {
        let words = with_empty_brackets(random, self.words());
        let mut text = joined(&words, any_gaps(random));
        if random.chance(15) {
            text.extend(any_comment(random));
        }
        text
    }
}

/// Those at the ends more often than others.
fn any_label(random: &mut Random) -> u8 {
    if random.chance(30) {
        random.pick(&[0, 1, 9, 10, 62, 63])
    } else {
        random.below(64) as u8
    }
}

// ---- texts

pub fn is_number(word: &[u8]) -> bool {
    word.iter().all(u8::is_ascii_digit)
}

/// The words with gaps before, between and behind them; a gap is told whether it stands between two numbers.
pub fn joined(words: &[Word], mut gap: impl FnMut(bool) -> Vec<u8>) -> Vec<u8> {
    let (mut text, mut behind_number) = (Vec::new(), false);
    for word in words {
        text.extend(gap(behind_number && is_number(word)));
        text.extend(word);
        behind_number = is_number(word);
    }
    text.extend(gap(false));
    text
}

/// Behind some numbers with no children.
fn with_empty_brackets(random: &mut Random, words: Vec<Word>) -> Vec<Word> {
    let often = random.pick(&[0, 0, 10, 50]);
    let mut more = Vec::new();
    for (at, word) in words.iter().enumerate() {
        more.push(word.clone());
        let has_children = words.get(at + 1).map_or(false, |next| next == b"(");
        if is_number(word) && !has_children && random.chance(often) {
            more.extend([b"(".to_vec(), b")".to_vec()]);
        }
    }
    more
}

/// One text's own habit: how often something stands where nothing need, and how often it is a comment.
pub fn any_gaps(random: &mut Random) -> impl FnMut(bool) -> Vec<u8> + '_ {
    let (often, comments) = (random.pick(&[0, 5, 30, 70]), random.pick(&[0, 0, 10, 40]));
    move |separates| {
        let mut gap = Vec::new();
        while separates && gap.is_empty() || random.chance(often) {
            gap.extend(any_space(random, comments));
        }
        gap
    }
}

fn any_space(random: &mut Random, comments: usize) -> Vec<u8> {
    if random.chance(comments) {
        return [any_comment(random), b"\n".to_vec()].concat();
    }
    random.pick(&[b" ", b" ", b"\n"]).to_vec()
}

/// Without the line end: brackets and digits as they stand elsewhere, or any bytes.
fn any_comment(random: &mut Random) -> Vec<u8> {
    let any = random.chance(30);
    let length = random.below(12);
    let byte = |_| if any { random.byte() } else { random.pick(b"()0569 !/\t\r") };
    let inside = (0..length).map(byte).map(|byte| if byte == b'\n' { b'!' } else { byte });
    std::iter::once(b'!').chain(inside).collect()
}
