//! The real streams beside this file, for the comparison and for the benchmark: each line of rows.txt is a pair, a tree with a query
//! behind it, and how many rows there are.

use std::fs;

/// From the repository's root, where the scripts of tests/ work.
const FOLDER: &str = "tests/fortran";

pub struct Pair {
    /// The tree's file and the query's, without their endings.
    pub name: String,
    pub input: Vec<u8>,
    pub rows: u64,
}

/// In the order of rows.txt.
pub fn pairs() -> Vec<Pair> {
    String::from_utf8(read("rows.txt")).expect("a text").lines().map(pair).collect()
}

fn pair(line: &str) -> Pair {
    let [unit, query, rows] = line.split(' ').collect::<Vec<_>>()[..] else {
        panic!("rows.txt: {line:?} is no pair with its rows")
    };
    Pair {
        name: format!("{unit} {query}"),
        input: [read(&format!("{unit}.records")), read(&format!("{query}.query"))].concat(),
        rows: rows.parse().expect("how many rows"),
    }
}

fn read(file: &str) -> Vec<u8> {
    let path = format!("{FOLDER}/{file}");
    fs::read(&path).unwrap_or_else(|error| panic!("{path}: {error}"))
}
