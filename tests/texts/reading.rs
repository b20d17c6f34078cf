//! A text read into nodes.

use crate::{Node, LABELS};
use std::iter::Peekable;
use std::slice::Iter;

#[derive(Clone, Copy, PartialEq)]
enum Word {
    Label(u8),
    Open,
    Close,
}

type Words<'a> = Peekable<Iter<'a, Word>>;

/// The one root of a text; none where the text is outside the rules, but for the number of nodes.
pub fn root_of(text: &[u8]) -> Option<Node> {
    let words = words_of(&without_comments(text))?;
    let mut words = words.iter().peekable();
    let root = node(&mut words)?;
    words.next().is_none().then(|| root)
}

/// From an exclamation mark up to the next line end, which stays, or the text's end.
fn without_comments(text: &[u8]) -> Vec<u8> {
    let lines: Vec<&[u8]> = text.split(|&byte| byte == b'\n').collect();
    let rules: Vec<&[u8]> = lines.iter().map(|line| line.split(|&byte| byte == b'!').next().unwrap_or(line)).collect();
    rules.join(&b'\n')
}

/// None where a character is wrong, or a number is no label.
fn words_of(text: &[u8]) -> Option<Vec<Word>> {
    let (mut words, mut rest) = (Vec::new(), text);
    while let Some((&first, behind)) = rest.split_first() {
        rest = behind;
        match first {
            b' ' | b'\n' => (),
            b'(' => words.push(Word::Open),
            b')' => words.push(Word::Close),
            b'0'..=b'9' => {
                let digits = 1 + rest.iter().take_while(|byte| byte.is_ascii_digit()).count();
                let number = &text[text.len() - rest.len() - 1..][..digits];
                words.push(Word::Label(label_of(number)?));
                rest = &rest[digits - 1..];
            }
            _ => return None,
        }
    }
    Some(words)
}

/// The label that is written so, and not otherwise.
fn label_of(number: &[u8]) -> Option<u8> {
    let label: u8 = std::str::from_utf8(number).ok()?.parse().ok()?;
    (label < LABELS && label.to_string().as_bytes() == number).then(|| label)
}

/// A label, and its children where brackets follow.
fn node(words: &mut Words) -> Option<Node> {
    let label = match words.next()? {
        Word::Label(label) => *label,
        _ => return None,
    };
    let mut children = Vec::new();
    if words.next_if_eq(&&Word::Open).is_some() {
        while words.next_if_eq(&&Word::Close).is_none() {
            children.push(node(words)?);
        }
    }
    Some(Node { label, children })
}
