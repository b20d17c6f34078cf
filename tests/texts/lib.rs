//! Request 2026-01 followed with a tree of nodes: a bracketed text read into nodes, their image as tree records, and both ways back.
//! It shares no code with the library nor with the other two programs.
//!
//! - `reading`: a text, its comments taken out first, then its words, then its nodes by recursion
//! - `image`: nodes to records and records to nodes, by recursion on first child and next sibling
//! - `printing`: the text of nodes with nothing in it that is not needed

mod image;
mod printing;
mod reading;

use std::thread;

/// A written node.
#[derive(Debug, PartialEq)]
struct Node {
    label: u8,
    children: Vec<Node>,
}

const LABELS: u8 = 64;
const MOST_NODES: usize = 2_047;

/// The program's own limit.
const MOST_INPUT: usize = 65_536;

/// The recursion is as deep as the tree is deep and wide, and an input is read to its end before its nodes are counted. One that is
/// not longer than so needs no stack of its own.
const SHORT_INPUT: usize = 4_096;
const STACK: usize = 1 << 28;

/// How many bytes were written or the number that refuses, and the lent output afterwards.
#[derive(Clone, Debug, PartialEq)]
pub struct After {
    pub answer: Result<usize, u8>,
    pub output: Vec<u8>,
}

pub fn text_to_tree(text: &[u8], output: &[u8]) -> After {
    after(image_of(text), output)
}

pub fn tree_to_text(tree: &[u8], output: &[u8]) -> After {
    after(text_of(tree), output)
}

/// The tree records of a text; none where it is outside the rules.
pub fn image_of(text: &[u8]) -> Option<Vec<u8>> {
    with_stack_for(text, || {
        let root = reading::root_of(text)?;
        is_small(&root).then(|| image::records_of(&root))
    })
}

/// The text of an image with nothing in it that is not needed; none where the bytes are not wholly an image.
pub fn text_of(tree: &[u8]) -> Option<Vec<u8>> {
    with_stack_for(tree, || {
        let root = image::root_of(tree)?;
        is_small(&root).then(|| printing::text_of(&root))
    })
}

/// What the program `tree` writes on standard output.
pub fn told(input: &[u8]) -> Vec<u8> {
    if input.len() > MOST_INPUT {
        return b"refused 14\n".to_vec();
    }
    image_of(input).unwrap_or(b"refused 15\n".to_vec())
}

/// 15, then 10; either leaves the output unchanged, and behind the result it stays.
fn after(result: Option<Vec<u8>>, output: &[u8]) -> After {
    let mut output = output.to_vec();
    let answer = match result {
        None => Err(15),
        Some(result) if output.len() < result.len() => Err(10),
        Some(result) => {
            output[..result.len()].copy_from_slice(&result);
            Ok(result.len())
        }
    };
    After { answer, output }
}

fn is_small(root: &Node) -> bool {
    count(root) <= MOST_NODES
}

fn count(node: &Node) -> usize {
    1 + node.children.iter().map(count).sum::<usize>()
}

/// Nodes are made, read and dropped in there.
fn with_stack_for<A: Send>(input: &[u8], make: impl FnOnce() -> A + Send) -> A {
    if input.len() <= SHORT_INPUT {
        return make();
    }
    thread::scope(|scope| {
        let made = thread::Builder::new().stack_size(STACK).spawn_scoped(scope, make).expect("a thread");
        made.join().expect("no panic")
    })
}
