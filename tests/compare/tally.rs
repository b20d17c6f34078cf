//! Counts what was compared, and prints the first differences.

use crate::asked::QuestionTrial;
use crate::by_pads;
use crate::cases::Case;
use crate::check::Seen;
use crate::conversion::Conversion;
use crate::listed::Told;
use crate::listings::{Listing, BUFFER};
use crate::pads::Met;
use crate::typed::Typed;
use crate::verdict::{same, Verdict};
use std::collections::BTreeSet;

const MOST_PRINTED: usize = 20;
const LONGEST_PRINTED: usize = 160;

/// Refusals in the order in which a build, the listing program, a question, a conversion and the program `tree` give them.
const OF_BUILD: [usize; 6] = [1, 2, 3, 4, 5, 6];
const OF_PROGRAM: [usize; 7] = [14, 1, 2, 3, 4, 5, 6];
const OF_QUESTION: [usize; 9] = [5, 11, 13, 7, 8, 9, 10, 6, 12];
const OF_CONVERSION: [usize; 2] = [15, 10];
const OF_TYPED: [usize; 2] = [14, 15];

/// One more than the highest refusal.
const ANSWERS: usize = 16;

const QUESTIONS: usize = 5;

/// At least one in so many answered streams has a pad, a rule for it that is never used, these and rows, a branch of label 0 that a rule
/// marks.
const ONE_IN: [usize; 4] = [3, 4, 10, 10];

/// At least so many rows, members, projections and fixings are asked of sets with pads.
const FEWEST_OF_PADS: usize = 500;

/// Refusals 1 to 4 have a position: each at so many different ones or more, and 2 at the one where a 4,096th tree record begins.
const WITH_POSITION: usize = 4;
const FEWEST_POSITIONS: [usize; WITH_POSITION] = [100, 1, 300, 150];
const OF_MANY_NODES: usize = 8190;

#[derive(Clone, Copy, PartialEq)]
pub enum What {
    Streams,
    Listings,
    Questions,
    Texts,
    Images,
    /// What is written from a text or an image, converted back.
    RoundTrips,
    Typed,
    Own,
}

/// A title, and what stands under it.
type Column = (&'static str, fn(&Kind) -> usize);

const LISTED: &[Column] = &[("listed", |kind| kind.listed), ("rows", |kind| kind.rows)];
const BUILT: &[Column] = &[
    ("listed", |kind| kind.listed),
    ("rows", |kind| kind.rows),
    ("pads", |kind| kind.met.pads),
    ("unused", |kind| kind.met.unused_rules),
    ("branches", |kind| kind.met.marked_branches),
];
const BYTES: &[Column] = &[("bytes", |kind| kind.entries)];

/// Of one kind of case.
struct Kind {
    name: &'static str,
    what: What,
    passed: usize,
    failed: usize,
    /// By answer: answered, then by refusal.
    answers: [usize; ANSWERS],
    /// Answered ones held to a plain list of rows; for a stream the list is that of all markings.
    listed: usize,
    rows: usize,
    records: usize,
    entries: usize,
    /// Listings that no buffer of the program holds at once, and those with no row.
    long: usize,
    empty: usize,
    met: AllMet,
}

/// How many answered streams have what of label 0.
#[derive(Default)]
struct AllMet {
    pads: usize,
    unused_rules: usize,
    unused_rules_and_rows: usize,
    marked_branches: usize,
}

#[derive(Default)]
pub struct Tally {
    kinds: Vec<Kind>,
    printed: usize,
    /// By question, in the order of the paper: all, and those whose answer could be another if pads stood in rows.
    asked: [usize; QUESTIONS],
    asked_of_pads: [usize; QUESTIONS],
    /// By refusal, from 1: the positions at which streams and listings are refused.
    positions: [BTreeSet<usize>; WITH_POSITION],
}

impl Tally {
    /// Kinds stand in the order in which they come.
    fn kind(&mut self, name: &'static str, what: What) -> &mut Kind {
        let at = self.kinds.iter().position(|kind| kind.name == name && kind.what == what).unwrap_or_else(|| {
            let (answers, listed, rows, records, entries, long, empty) = ([0; ANSWERS], 0, 0, 0, 0, 0, 0);
            let met = AllMet::default();
            self.kinds.push(Kind { name, what, passed: 0, failed: 0, answers, listed, rows, records, entries, long, empty, met });
            self.kinds.len() - 1
        });
        &mut self.kinds[at]
    }

    /// The difference comes before the rest of what is said of a case, which may be long.
    fn judge(&mut self, name: &'static str, what: What, label: &str, rest: &str, verdict: Verdict) {
        let difference = match verdict {
            Ok(()) => return self.kind(name, what).passed += 1,
            Err(difference) => difference,
        };
        self.kind(name, what).failed += 1;
        self.printed += 1;
        if self.printed <= MOST_PRINTED {
            println!("{name}, {label}: {difference}{rest}");
        }
    }

    /// A check with no call of its own.
    pub fn own(&mut self, name: &'static str, label: &str, verdict: Verdict) {
        self.judge(name, What::Own, label, "", verdict);
    }

    pub fn stream(&mut self, case: &Case, label: &str, seen: &Seen, verdict: Verdict) {
        self.met_position(seen.answer, seen.position);
        let kind = self.kind(case.kind, What::Streams);
        kind.answers[seen.answer as usize] += 1;
        kind.listed += seen.rows.is_some() as usize;
        kind.rows += seen.rows.unwrap_or(0);
        kind.records += seen.records;
        kind.entries += seen.entries;
        kind.met.add(seen.met);
        let lent = format!("work of {}, table of {}", case.work.len(), case.table.len());
        let rest = format!(" ({lent}, stream {})", words(case.input.iter()));
        self.judge(case.kind, What::Streams, label, &rest, verdict);
    }

    pub fn listing(&mut self, case: &Listing, number: usize, told: &Told, verdict: Verdict) {
        self.met_position(told.answer, told.position);
        let kind = self.kind(case.kind, What::Listings);
        kind.answers[told.answer as usize] += 1;
        kind.listed += told.rows.is_some() as usize;
        kind.rows += told.rows.unwrap_or(0);
        kind.entries += told.bytes;
        kind.long += (told.bytes > BUFFER) as usize;
        kind.empty += told.has_no_row as usize;
        kind.met.add(told.met);
        let rest = format!(" ({} bytes in pieces of {}: {})", case.input.len(), case.piece, words(case.input.iter()));
        self.judge(case.kind, What::Listings, &format!("listing {number}"), &rest, verdict);
    }

    fn met_position(&mut self, refusal: u8, position: Option<usize>) {
        if let Some(position) = position {
            self.positions[refusal as usize - 1].insert(position);
        }
    }

    /// The program is run on many streams, with every refusal that it can give, long listings and some with no row.
    pub fn listings_are_enough(&mut self, fewest: usize) {
        let name = "the program's streams";
        let met = |refusal: usize| self.sum(What::Listings, |kind| kind.answers[refusal]) > 0;
        let missing: Vec<usize> = OF_PROGRAM.into_iter().filter(|&refusal| !met(refusal)).collect();
        let some = [|kind: &Kind| kind.long, |kind: &Kind| kind.empty].map(|of| self.sum(What::Listings, of) > 0);
        let many = self.sum(What::Listings, Kind::cases) >= fewest;
        self.own(name, "refusals", same("refusals not met", missing, vec![]));
        self.own(name, "length", same("some long listings, some with no row", some, [true, true]));
        self.own(name, "number", same("enough streams", many, true));
    }

    pub fn question(&mut self, trial: &QuestionTrial, answer: u8, entries: usize, verdict: Verdict) {
        let (asking, rows) = (&trial.asked.asking, &trial.asked.rows);
        self.asked[asking.question.number()] += 1;
        self.asked_of_pads[asking.question.number()] += by_pads::concerns(asking, answer, &trial.pads) as usize;
        let kind = self.kind(trial.kind, What::Questions);
        kind.answers[answer as usize] += 1;
        kind.entries += entries;
        if let (Some(rows), 0) = (rows, answer) {
            kind.listed += 1;
            kind.rows += rows.len();
        }
        let lent = format!("head {:?}, table of {}, work of {}", asking.set.head, asking.set.table.len(), asking.work.len());
        let rest = format!(" ({}, {lent})", asking.question.name());
        self.judge(trial.kind, What::Questions, &trial.label, &rest, verdict);
    }

    pub fn conversion(&mut self, what: What, case: &Conversion, number: usize, answer: u8, verdict: Verdict) {
        let kind = self.kind(case.kind, what);
        kind.answers[answer as usize] += 1;
        kind.entries += case.call().entries();
        let rest = format!(" (into {} bytes: {})", case.output.len(), words(case.input.iter()));
        self.judge(case.kind, what, &format!("{} {number}", what.word()), &rest, verdict);
    }

    pub fn typed(&mut self, case: &Typed, number: usize, answer: u8, bytes: usize, verdict: Verdict) {
        let kind = self.kind(case.kind, What::Typed);
        kind.answers[answer as usize] += 1;
        kind.entries += bytes;
        let rest = format!(" ({} bytes in pieces of {}: {})", case.input.len(), case.piece, words(case.input.iter()));
        self.judge(case.kind, What::Typed, &format!("typed {number}"), &rest, verdict);
    }

    /// Many of them, some answered, and with every refusal that they can get.
    pub fn are_enough(&mut self, name: &'static str, what: What, fewest: usize) {
        let refusals = if what == What::Typed { OF_TYPED } else { OF_CONVERSION };
        let missing: Vec<usize> =
            [0].into_iter().chain(refusals).filter(|&answer| self.sum(what, |kind| kind.answers[answer]) == 0).collect();
        let many = self.sum(what, Kind::cases) >= fewest;
        self.own(name, "answers", same("answers not met", missing, vec![]));
        self.own(name, "number", same("enough", many, true));
    }

    /// Pads, and all that the request says of their label, stand in a good part of all that is built, listed and asked.
    pub fn pads_are_enough(&mut self) {
        for (what, label) in [(What::Streams, "streams"), (What::Listings, "listings")] {
            let (met, answered) = (self.all_met(what), self.sum(what, |kind| kind.answers[0]));
            let enough = [0, 1, 2, 3].map(|part| met[part] * ONE_IN[part] >= answered);
            self.own("pads", label, same("enough", enough, [true; 4]));
        }
        let [_, of_sets @ ..] = self.asked_of_pads;
        self.own("pads", "questions", same("enough", of_sets.map(|asked| asked >= FEWEST_OF_PADS), [true; 4]));
    }

    /// Faults are met at many positions, near and far.
    pub fn positions_are_enough(&mut self) {
        let name = "positions";
        let enough = [0, 1, 2, 3].map(|refusal| self.positions[refusal].len() >= FEWEST_POSITIONS[refusal]);
        let of_many_nodes: Vec<usize> = self.positions[1].iter().copied().collect();
        self.own(name, "number", same("enough", enough, [true; WITH_POSITION]));
        self.own(name, "refused 2", same("positions", of_many_nodes, vec![OF_MANY_NODES]));
    }

    fn all_met(&self, what: What) -> [usize; 4] {
        let parts: [fn(&AllMet) -> usize; 4] =
            [|met| met.pads, |met| met.unused_rules, |met| met.unused_rules_and_rows, |met| met.marked_branches];
        parts.map(|part| self.sum(what, |kind| part(&kind.met)))
    }

    pub fn failed(&self) -> usize {
        self.kinds.iter().map(|kind| kind.failed).sum()
    }

    fn sum(&self, what: What, of: impl Fn(&Kind) -> usize) -> usize {
        self.kinds.iter().filter(|kind| kind.what == what).map(of).sum()
    }

    pub fn print(&self, with_driver: bool) {
        self.print_tables();
        self.print_sums();
        self.print_pads();
        self.print_positions();
        if with_driver {
            let called = [What::Streams, What::Questions, What::Texts, What::Images, What::RoundTrips];
            let entries: usize = called.map(|what| self.sum(what, |kind| kind.entries)).iter().sum();
            println!(
                "the library compared in all, {entries} entries of its buffers, and the programs in every listing and typed text"
            );
        } else {
            println!("no driver: the independent programs compared with each other, and no library and no program");
        }
        let passed: usize = self.kinds.iter().map(|kind| kind.passed).sum();
        println!("{passed} passed, {} failed", self.failed());
    }

    fn print_tables(&self) {
        self.print_kinds(What::Own, "checks", &[], &[]);
        self.print_kinds(What::Streams, "streams", &OF_BUILD, BUILT);
        self.print_kinds(What::Listings, "listings", &OF_PROGRAM, BUILT);
        self.print_kinds(What::Questions, "questions", &OF_QUESTION, LISTED);
        self.print_kinds(What::Texts, "texts", &OF_CONVERSION, BYTES);
        self.print_kinds(What::Images, "images", &OF_CONVERSION, BYTES);
        self.print_kinds(What::RoundTrips, "there and back", &OF_CONVERSION, BYTES);
        self.print_kinds(What::Typed, "typed texts", &OF_TYPED, BYTES);
    }

    fn print_sums(&self) {
        let streams = format!("with {} records", self.sum(What::Streams, |kind| kind.records));
        println!("{}", self.summary(What::Streams, "streams", &streams));
        let listings = |of: fn(&Kind) -> usize| self.sum(What::Listings, of);
        let texts = format!(
            "with {} bytes, {} of more than {BUFFER}, {} with no row",
            listings(|kind| kind.entries),
            listings(|kind| kind.long),
            listings(|kind| kind.empty),
        );
        println!("{}", self.summary(What::Listings, "listings", &texts));
        let [counts, rows, members, projections, fixings] = self.asked;
        let asked = format!("{counts} counts, {rows} rows, {members} members, {projections} projections, {fixings} fixings");
        println!("{}", self.summary(What::Questions, "questions", &asked));
        for (what, name) in [
            (What::Texts, "texts to trees"),
            (What::Images, "images to texts"),
            (What::RoundTrips, "converted back"),
            (What::Typed, "texts through the program tree"),
        ] {
            let (cases, answered) = (self.sum(what, Kind::cases), self.sum(what, |kind| kind.answers[0]));
            println!("{cases} {name}, {answered} answered");
        }
    }

    fn print_pads(&self) {
        for (what, name) in [(What::Streams, "streams"), (What::Listings, "listings")] {
            let [pads, unused, rows, branches] = self.all_met(what);
            let of_pads = format!("{pads} have a pad, {unused} a rule too that would mark it, {rows} these and rows");
            println!("of the {name} answered {of_pads}; {branches} have a branch of label 0 and a rule that marks it");
        }
        let [_, rows, members, projections, fixings] = self.asked_of_pads;
        println!(
            "of sets with pads {rows} rows, {projections} projections, {members} members that name one, {fixings} fixings at one"
        );
    }

    fn print_positions(&self) {
        let of_each = (1..).zip(&self.positions).map(|(refusal, positions)| {
            format!("{} of refusal {refusal} up to {}", positions.len(), positions.last().unwrap_or(&0))
        });
        println!("different positions: {}", of_each.collect::<Vec<_>>().join(", "));
    }

    /// How many cases, how many of them answered and held to rows found by another way, and what there is to say of them.
    fn summary(&self, what: What, name: &str, more: &str) -> String {
        let [cases, answered, listed, rows] =
            [Kind::cases, |kind: &Kind| kind.answers[0], |kind: &Kind| kind.listed, |kind: &Kind| kind.rows]
                .map(|of| self.sum(what, of));
        format!("{cases} {name}, {answered} answered, {more}; {listed} held to a list of rows, {rows} rows")
    }

    fn print_kinds(&self, what: What, title: &str, refusals: &[usize], columns: &[Column]) {
        let numbers: String = refusals.iter().map(|number| format!("{number:>6}")).collect();
        let titles: String = columns.iter().map(|(title, _)| format!("{title:>9}")).collect();
        let more = if refusals.is_empty() { String::new() } else { format!("{:>9}{numbers}{titles}", "answered") };
        println!("{title:<44}{:>7}{more}", "cases");
        for kind in self.kinds.iter().filter(|kind| kind.what == what) {
            let refused: String = refusals.iter().map(|&number| format!("{:>6}", kind.answers[number])).collect();
            let values: String = columns.iter().map(|(_, of)| format!("{:>9}", of(kind))).collect();
            let line = format!("{:>9}{refused}{values}", kind.answers[0]);
            println!("{:<44}{:>7}{}", kind.name, kind.cases(), if refusals.is_empty() { "" } else { &line });
        }
    }
}

impl What {
    /// Before a conversion's number.
    fn word(self) -> &'static str {
        match self {
            What::Texts => "text",
            What::Images => "image",
            _ => "back from",
        }
    }
}

impl AllMet {
    fn add(&mut self, met: Met) {
        self.pads += met.pad as usize;
        self.unused_rules += met.unused_rule as usize;
        self.unused_rules_and_rows += met.unused_rule_and_rows as usize;
        self.marked_branches += met.marked_branch as usize;
    }
}

impl Kind {
    fn cases(&self) -> usize {
        self.passed + self.failed
    }
}

/// The first of them.
fn words<'a>(bytes: impl ExactSizeIterator<Item = &'a u8>) -> String {
    let more = if bytes.len() > LONGEST_PRINTED { " .." } else { "" };
    let words: Vec<String> = bytes.take(LONGEST_PRINTED).map(|byte| byte.to_string()).collect();
    words.join(" ") + more
}
