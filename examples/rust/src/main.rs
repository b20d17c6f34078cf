//! Builds the set of a stream and asks it everything: how many rows, a page of them, whether a row is among them, which nodes stand at
//! a place, and which rows have a node there.
//!
//!     show STREAM FIRST LAST PLACE NODE ROW ..
//!
//! Lists rows FIRST to LAST, projects PLACE and fixes it at NODE, and looks for ROW, a node for each place.

use std::error::Error;
use std::process::ExitCode;
use std::{env, fs};
use tarnsatchel::{build, count, fix, member, project, row, Head, Record, Refusal, BLANK, MOST_RECORDS, MOST_WORK};

/// A refusal, with the name of the call.
type Told<A> = Result<A, String>;

fn told<A>(call: &str, answer: Result<A, Refusal>) -> Told<A> {
    answer.map_err(|refusal| format!("{call} {refusal}"))
}

struct Words {
    stream: String,
    first: u64,
    last: u64,
    place: u16,
    node: u16,
    row: Vec<u16>,
}

fn words() -> Result<Words, Box<dyn Error>> {
    let mut words = env::args().skip(1);
    let mut next = || words.next().ok_or("usage: show STREAM FIRST LAST PLACE NODE ROW ..");
    let (stream, first, last) = (next()?, next()?.parse()?, next()?.parse()?);
    let (place, node) = (next()?.parse()?, next()?.parse()?);
    Ok(Words { stream, first, last, place, node, row: words.map(|word| word.parse()).collect::<Result<_, _>>()? })
}

fn main() -> ExitCode {
    match run() {
        Ok(status) => status,
        Err(error) => {
            eprintln!("{error}");
            ExitCode::from(2)
        }
    }
}

/// A refusal is told and ends the program.
fn run() -> Result<ExitCode, Box<dyn Error>> {
    let words = words()?;
    let input = fs::read(&words.stream)?;
    match show(&input, &words) {
        Ok(()) => Ok(ExitCode::SUCCESS),
        Err(refused) => {
            println!("{refused}");
            Ok(ExitCode::from(1))
        }
    }
}

fn show(input: &[u8], words: &Words) -> Told<()> {
    let (mut work, mut table) = (vec![0; MOST_WORK], vec![Record::default(); MOST_RECORDS]);
    let head = told("build", build(input, &mut work, &mut table))?;
    println!("records {}", head.used);
    println!("rows {}", told("count", count(&head, &table, &mut work))?);
    println!("rows {} to {}:", words.first, words.last);
    list(&head, &table, &mut work, words.first, words.last)?;
    let listed = told("member", member(&head, &table, &mut work, &words.row))?;
    println!("member {}: {}", text_of(&words.row), if listed { "yes" } else { "no" });
    let mut marks = vec![0; head.nodes as usize];
    told("project", project(&head, &table, &mut work, words.place, &mut marks))?;
    let nodes: String = (0..marks.len()).filter(|&node| marks[node] == 1).map(|node| format!(" {node}")).collect();
    println!("place {}:{nodes}", words.place);
    let mut target = vec![Record::default(); head.used as usize];
    let fixed = told("fix", fix(&head, &table, &mut work, words.place, words.node, &mut target))?;
    let rows = told("count", count(&fixed, &target, &mut work))?;
    println!("place {} fixed at {}: rows {rows}", words.place, words.node);
    list(&fixed, &target, &mut work, 0, rows)
}

/// Rows first to last, as far as there are.
fn list(head: &Head, table: &[Record], work: &mut [u64], first: u64, last: u64) -> Told<()> {
    let rows = told("count", count(head, table, work))?;
    let mut nodes = vec![0; head.arity as usize];
    for number in first..rows.min(last + 1) {
        told("row", row(head, table, work, number, &mut nodes))?;
        println!("{}", text_of(&nodes));
    }
    Ok(())
}

/// A fixed place is shown as '-'.
fn text_of(row: &[u16]) -> String {
    let nodes: Vec<String> = row.iter().map(|&node| if node == BLANK { "-".to_string() } else { node.to_string() }).collect();
    nodes.join(" ")
}
