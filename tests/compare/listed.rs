//! Judges one listing: the program's text, where there is a program, against the text by `records`, and what stands in it against
//! all markings.

use crate::check::{refusal_of, MOST_MARKINGS};
use crate::listings::Listing;
use crate::pads::Met;
use crate::program::Program;
use crate::tally::Tally;
use crate::verdict::{same, same_entries, Verdict};
use markings::Stream;
use records::Refusal;

/// No case lists more.
const MOST_ROWS: usize = 1_000_000;

/// What a listing was, for the tally.
#[derive(Default)]
pub struct Told {
    /// The refusal's number, or 0.
    pub answer: u8,
    /// Where it is refused 1 to 4.
    pub position: Option<usize>,
    pub bytes: usize,
    pub has_no_row: bool,
    /// The rows compared with all markings; none where the tree has too many.
    pub rows: Option<usize>,
    /// Where it was answered.
    pub met: Met,
}

/// With no program the text by `records` is judged.
pub fn judge(case: &Listing, number: usize, program: Option<&Program>, tally: &mut Tally) {
    let expected = records::listing::listing(&case.input, MOST_ROWS).expect("few rows");
    let refusal = refusal_in(&expected);
    let mut told = Told { answer: refusal.map_or(0, |refusal| refusal.number), bytes: expected.len(), ..Told::default() };
    told.position = refusal.and_then(|refusal| refusal.position);
    told.has_no_row = expected.ends_with("\nrows 0\n");
    told.met = if told.answer == 0 { Met::in_stream(&case.input, !told.has_no_row) } else { Met::default() };
    let text = program.map_or(Ok(expected.clone().into_bytes()), |program| program.text(&case.input, case.piece));
    let verdict = text.and_then(|text| {
        same_entries("the text's lines:", &lines(&text), &lines(expected.as_bytes()))?;
        check_markings(&case.input, &String::from_utf8_lossy(&text), &mut told)
    });
    tally.listing(case, number, &told, verdict);
}

/// Each with its end, so that a missing one shows.
fn lines(text: &[u8]) -> Vec<String> {
    text.split_inclusive(|&byte| byte == b'\n').map(|line| String::from_utf8_lossy(line).into_owned()).collect()
}

/// In a line as `refused 14`, or as `refused 3 at 40`.
fn refusal_in(text: &str) -> Option<Refusal> {
    let said = text.strip_prefix("refused ")?.strip_suffix('\n')?;
    match said.split_once(" at ") {
        Some((number, position)) => Some(Refusal::at(position.parse().ok()?, number.parse().ok()?)),
        None => Some(Refusal::nowhere(said.parse().ok()?)),
    }
}

/// `markings` gives the same refusals 1 to 4 at the same positions, and of a small tree the same rows; it knows nothing of the program's
/// buffers.
fn check_markings(input: &[u8], text: &str, told: &mut Told) -> Verdict {
    match (markings::read(input), refusal_in(text)) {
        (_, Some(Refusal { number: 14, position: None })) | (Ok(_), Some(Refusal { number: 5 | 6, position: None })) => Ok(()),
        (Err(refusal), refused) => same("refusal by markings", Some(refusal_of(&refusal)), refused),
        (Ok(_), Some(refused)) => Err(format!("{refused:?}, and not by markings")),
        (Ok(stream), None) if stream.markings() > MOST_MARKINGS => Ok(()),
        (Ok(stream), None) => check_rows(&stream, text, told),
    }
}

/// The line of the count, and the lines of the rows, each in the set's order that `markings` does not know.
fn check_rows(stream: &Stream, text: &str, told: &mut Told) -> Verdict {
    let accepted = stream.accepted_rows();
    let mut expected: Vec<String> = accepted.iter().map(|row| line_of(row)).collect();
    let mut listed: Vec<String> = text.lines().skip(2).map(str::to_string).collect();
    expected.sort();
    listed.sort();
    same("the line of the count", text.lines().nth(1), Some(format!("rows {}", expected.len()).as_str()))?;
    same_entries("rows by markings: line", &listed, &expected)?;
    told.rows = Some(expected.len());
    Ok(())
}

/// The nodes at places 1 to the arity, one space between two.
fn line_of(row: &[u16]) -> String {
    let nodes: Vec<String> = row.iter().map(u16::to_string).collect();
    nodes.join(" ")
}
