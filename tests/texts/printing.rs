//! Nodes written as a text: one byte 32 between two neighbouring numbers, no other blank or line end, no empty brackets, no comments.

use crate::Node;

pub fn text_of(root: &Node) -> Vec<u8> {
    let mut text = Vec::new();
    print(root, &mut text);
    text
}

fn print(node: &Node, text: &mut Vec<u8>) {
    // what stands before is the sibling's number, and not a bracket
    if text.last().map_or(false, u8::is_ascii_digit) {
        text.push(b' ');
    }
    text.extend(node.label.to_string().bytes());
    if !node.children.is_empty() {
        text.push(b'(');
        node.children.iter().for_each(|child| print(child, text));
        text.push(b')');
    }
}
