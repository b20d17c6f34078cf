//! The benchmark's ordinary Rust program for bracketed texts: a text into nodes that own their children, the nodes into tree records,
//! and both ways back, with String and Vec, by recursion, and with no proof.

use std::fmt::Write;

struct Node {
    label: u8,
    children: Vec<Node>,
}

const MOST_NODES: usize = 2_047;

// ---- text to tree

struct Reader<'a> {
    text: &'a [u8],
    at: usize,
    nodes: usize,
}

/// None where the text is outside the rules.
pub fn text_to_tree(text: &[u8]) -> Option<Vec<u8>> {
    let mut reader = Reader { text, at: 0, nodes: 0 };
    reader.skip_blanks();
    let root = reader.node()?;
    if reader.at < text.len() {
        return None;
    }
    let mut tree = Vec::new();
    add(&[root], &mut tree);
    Some(tree)
}

impl Reader<'_> {
    fn next(&self) -> Option<u8> {
        self.text.get(self.at).copied()
    }

    fn skip_blanks(&mut self) {
        loop {
            match self.next() {
                Some(b' ' | b'\n') => self.at += 1,
                Some(b'!') => {
                    while self.next().map_or(false, |byte| byte != b'\n') {
                        self.at += 1;
                    }
                }
                _ => return,
            }
        }
    }

    /// Each also steps over what may stand behind it.
    fn label(&mut self) -> Option<u8> {
        let from = self.at;
        while self.next().map_or(false, |byte| byte.is_ascii_digit()) {
            self.at += 1;
        }
        let label = match self.text[from..self.at] {
            [digit] => digit - b'0',
            [tens @ b'1'..=b'6', ones] => 10 * (tens - b'0') + (ones - b'0'),
            _ => return None,
        };
        self.skip_blanks();
        (label < 64).then_some(label)
    }

    fn node(&mut self) -> Option<Node> {
        let label = self.label()?;
        self.nodes += 1;
        if self.nodes > MOST_NODES {
            return None;
        }
        let mut children = Vec::new();
        if self.next() == Some(b'(') {
            self.at += 1;
            self.skip_blanks();
            while self.next() != Some(b')') {
                children.push(self.node()?);
            }
            self.at += 1;
            self.skip_blanks();
        }
        Some(Node { label, children })
    }
}

fn add(siblings: &[Node], tree: &mut Vec<u8>) {
    match siblings {
        [] => tree.extend([1, 0]),
        [first, next @ ..] => {
            add(&first.children, tree);
            add(next, tree);
            tree.extend([2, first.label]);
        }
    }
}

// ---- tree to text

/// None where the records are no image.
pub fn tree_to_text(tree: &[u8]) -> Option<String> {
    // of each subtree that is not joined yet its siblings, the last first, so that one more is put at the end
    let mut unjoined: Vec<Vec<Node>> = Vec::new();
    let mut nodes = 0;
    for record in tree.chunks(2) {
        match *record {
            [1, 0] => unjoined.push(Vec::new()),
            [2, label @ 0..=63] if nodes < MOST_NODES => {
                let mut siblings = unjoined.pop()?;
                let mut children = unjoined.pop()?;
                children.reverse();
                siblings.push(Node { label, children });
                unjoined.push(siblings);
                nodes += 1;
            }
            _ => return None,
        }
    }
    match (unjoined.pop().as_deref(), unjoined.is_empty()) {
        (Some([root]), true) => {
            let mut text = String::new();
            print(root, &mut text);
            Some(text)
        }
        _ => None,
    }
}

fn print(node: &Node, text: &mut String) {
    write!(text, "{}", node.label).expect("a String takes all");
    if !node.children.is_empty() {
        text.push('(');
        for (number, child) in node.children.iter().enumerate() {
            if number > 0 && !text.ends_with(')') {
                text.push(' ');
            }
            print(child, text);
        }
        text.push(')');
    }
}
