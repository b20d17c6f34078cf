//! Compares the library with the independent programs, on many streams, questions, texts and images made from a seed and on real
//! streams, and these programs with each other.
//!
//!     compare [--seed N] [--stream N] [--listing N] [--group N] [--text N] [--image N] [--typed N] [--pair N]
//!             [DRIVER .. -- LIST .. -- TREE ..]
//!
//! DRIVER is the command that runs the driver, LIST and TREE those that run the programs; without them the independent programs are
//! compared with each other, and with what is known from how an input was made, which is the test of the tests. `--stream N` prints
//! that stream, `--listing N` that stream of the program and its text, `--group N` that group of questions, `--text N` and `--image N`
//! that text or image and what is written, and the stream where the text is built with a query too, `--typed N` that text of the
//! program, `--pair N` that stream of tests/fortran. The last line is 'N passed, M failed'.

mod arguments;
mod asked;
mod asking;
mod by_hand;
mod by_pads;
mod by_rows;
mod byte_damage;
mod call;
mod cases;
mod check;
mod conversion;
mod damage;
mod driver;
mod fixings;
mod garbage;
mod image_cases;
mod limits;
mod listed;
mod listings;
mod made;
mod making;
mod numbered;
mod pad_limits;
mod pads;
mod pads_by_hand;
mod positions_by_hand;
mod program;
mod queried;
mod questions;
mod random;
mod real;
mod set_damage;
mod set_limits;
mod sets;
mod streams;
mod tally;
mod text_cases;
mod texts_by_hand;
mod trials;
mod typed;
mod verdict;
mod writings;

use arguments::Arguments;
use asked::QuestionTrial;
use check::StreamTrial;
use conversion::{Conversion, ConversionTrial};
use driver::Driver;
use made::Made;
use program::Program;
use questions::Group;
use random::Random;
use real::RealStreams;
use std::path::PathBuf;
use std::process::ExitCode;
use tally::{Tally, What};
use trials::Trials;

/// The programs are run on at least so many streams and texts, and so many texts and images are converted.
const FEWEST_LISTINGS: usize = 2_000;
const FEWEST_TYPED: usize = 300;
const FEWEST_TEXTS: usize = 20_000;
const FEWEST_IMAGES: usize = 5_000;

/// The folder that this program, and the independent ones, were built into.
fn folder() -> PathBuf {
    let program = std::env::current_exe().expect("this program's path");
    program.parent().expect("its folder").to_path_buf()
}

fn main() -> ExitCode {
    let arguments = Arguments::read();
    let made = Made::from(arguments.seed);
    if made.show(&arguments) {
        return ExitCode::SUCCESS;
    }
    println!("seed {}, {}", arguments.seed, made.numbers());
    let driver = Driver { command: arguments.driver, file: folder().join("calls") };
    let driver = Some(driver).filter(|driver| !driver.command.is_empty());
    let [list, tree] = [arguments.list, arguments.tree].map(|command| Some(Program { command }).filter(|_| driver.is_some()));
    let mut tally = Tally::default();
    by_hand::check_all(&folder(), &mut tally);
    check_listings(&made, list.as_ref(), &mut tally);
    check_typed(&made, tree.as_ref(), &mut tally);
    check_calls(&made, driver.as_ref(), &mut tally);
    tally.pads_are_enough();
    tally.positions_are_enough();
    tally.print(driver.is_some());
    if tally.failed() == 0 {
        ExitCode::SUCCESS
    } else {
        ExitCode::FAILURE
    }
}

fn check_listings(made: &Made, program: Option<&Program>, tally: &mut Tally) {
    for number in 0..made.listings.len() {
        listed::judge(&made.listings.make(number), number, program, tally);
    }
    tally.listings_are_enough(FEWEST_LISTINGS);
}

fn check_typed(made: &Made, program: Option<&Program>, tally: &mut Tally) {
    for number in 0..made.typed.len() {
        typed::judge(&made.typed.make(number), number, program, tally);
    }
    tally.are_enough("typed texts", What::Typed, FEWEST_TYPED);
}

fn check_calls(made: &Made, driver: Option<&Driver>, tally: &mut Tally) {
    let mut trials = Trials::with(driver);
    for number in 0..made.cases.len() {
        trials.add(Box::new(StreamTrial { case: made.cases.make(number), label: format!("stream {number}") }), tally);
    }
    for group in 0..made.groups.len() {
        let Group { kind, questions, pads, verdict } = made.groups.make(group);
        tally.own("sets as they were made", &format!("{kind}, group {group}"), verdict);
        for (number, asked) in questions.into_iter().enumerate() {
            let label = format!("group {group} question {number}");
            trials.add(Box::new(QuestionTrial { kind, label, asked, pads: pads.clone(), counted: None }), tally);
        }
    }
    tally.own(real::KIND, "rows.txt", made.real.check_number());
    for number in 0..made.real.len() {
        add_pair(&made.real, number, &mut trials, tally);
    }
    for number in 0..made.texts.len() {
        add_text(made.texts.make(number), number, &mut trials, tally);
    }
    for number in 0..made.images.len() {
        add_there_and_back("image, text, image", What::Images, made.images.make(number), number, &mut trials, tally);
    }
    trials.end(tally);
    tally.are_enough("texts", What::Texts, FEWEST_TEXTS);
    tally.are_enough("images", What::Images, FEWEST_IMAGES);
}

/// Built, and counted.
fn add_pair(real: &RealStreams, number: usize, trials: &mut Trials, tally: &mut Tally) {
    trials.add(Box::new(real.build(number)), tally);
    match real.count(number) {
        Ok(count) => trials.add(Box::new(count), tally),
        Err(difference) => tally.own(real::KIND, &real.label(number), Err(difference)),
    }
}

/// Of some that are accepted the image is built, with a query behind it.
fn add_text(case: Conversion, number: usize, trials: &mut Trials, tally: &mut Tally) {
    if let Some(queried) = queried::of_text(&case, number) {
        let label = format!("text {number}");
        tally.own(queried::KIND, &label, queried.check());
        trials.add(Box::new(StreamTrial { case: queried.case, label }), tally);
    }
    add_there_and_back("text, image, text", What::Texts, case, number, trials, tally);
}

fn add_there_and_back(kind: &'static str, what: What, case: Conversion, number: usize, trials: &mut Trials, tally: &mut Tally) {
    let back = case.back(&mut Random::of(case.bytes, number as u64), kind);
    trials.add(Box::new(ConversionTrial { what, case, number }), tally);
    if let Some(case) = back {
        trials.add(Box::new(ConversionTrial { what: What::RoundTrips, case, number }), tally);
    }
}
