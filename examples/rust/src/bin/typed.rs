//! Types a tree: makes its records, finds the nodes of a label in it, and types it back.
//!
//!     typed LABEL TEXT
//!
//! Finds the written nodes of LABEL, 0 to 63, in the tree that TEXT is the bracketed text of, as 9(5 6).
//! The tree's pads have label 0 too, and stand in no row.

use std::env;
use std::ffi::{OsStr, OsString};
use std::os::unix::ffi::OsStrExt;
use std::process::ExitCode;
use tarnsatchel::{
    build, count, row, text_to_tree, tree_to_text, Record, Refusal, LONGEST_TEXT, LONGEST_TREE, MOST_RECORDS, MOST_WORK,
};

/// A refusal, with the name of the call.
type Told<A> = Result<A, String>;

fn told<A>(call: &str, answer: Result<A, Refusal>) -> Told<A> {
    answer.map_err(|refusal| format!("{call} {refusal}"))
}

/// The label, and the text, which may be any bytes.
fn words() -> Result<(u8, OsString), &'static str> {
    let words: Vec<OsString> = env::args_os().skip(1).collect();
    match &words[..] {
        [label, text] => Ok((label_of(label).ok_or("LABEL is no number from 0 to 255")?, text.clone())),
        _ => Err("usage: typed LABEL TEXT"),
    }
}

/// The number that a word of digits writes, up to 255. Over 63 the query is refused.
fn label_of(word: &OsStr) -> Option<u8> {
    let digits = word.to_str().filter(|word| word.bytes().all(|byte| byte.is_ascii_digit()))?;
    digits.parse().ok()
}

/// A refusal is told and ends the program.
fn main() -> ExitCode {
    match words() {
        Ok((label, text)) => match find(label, text.as_bytes()) {
            Ok(()) => ExitCode::SUCCESS,
            Err(refused) => {
                println!("{refused}");
                ExitCode::from(1)
            }
        },
        Err(error) => {
            eprintln!("{error}");
            ExitCode::from(2)
        }
    }
}

fn find(label: u8, text: &[u8]) -> Told<()> {
    let mut tree = [0; LONGEST_TREE];
    let bytes = told("text_to_tree", text_to_tree(text, &mut tree))?;
    let tree = &tree[..bytes];
    let records: String = tree.iter().map(|byte| format!(" {byte}")).collect();
    println!("tree{records}");

    let (mut work, mut table) = (vec![0; MOST_WORK], vec![Record::default(); MOST_RECORDS]);
    let head = told("build", build(&[tree, &query(label)].concat(), &mut work, &mut table))?;
    let rows = told("count", count(&head, &table, &mut work))?;
    println!("rows {rows}");
    for number in 0..rows {
        let mut nodes = [0];
        told("row", row(&head, &table, &mut work, number, &mut nodes))?;
        println!("{}", nodes[0]);
    }

    let mut text = [0; LONGEST_TEXT];
    let bytes = told("tree_to_text", tree_to_text(tree, &mut text))?;
    println!("text {}", String::from_utf8_lossy(&text[..bytes]));
    Ok(())
}

/// The query that finds the nodes of a label: arity 1, state 1 where one is marked, state 0 elsewhere. A branch has its children on its
/// left and the siblings behind it on its right; the marked node is the branch itself, or among the ones, or among the others. In this
/// order of the rules the rows come in the order of the text.
fn query(wanted: u8) -> Vec<u8> {
    let mut bytes = vec![16, 1, 2, 17, 0, 0, 0, 19, 1, 18, wanted, 1, 0, 0, 1];
    for label in 0..64 {
        bytes.extend([18, label, 0, 0, 0, 0, 18, label, 0, 1, 0, 1, 18, label, 0, 0, 1, 1]);
    }
    bytes
}
