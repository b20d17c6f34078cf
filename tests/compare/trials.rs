//! Runs trials, each a call with its judge, in batches through the driver where there is one: with the faulting region behind each
//! buffer, which is judged, then with the region before it, and a few under valgrind; these must leave the very same.

use crate::call::{Call, Left};
use crate::driver::{Driver, Ran};
use crate::tally::Tally;
use crate::verdict::{same_entries, Verdict};

/// A batch goes to the driver in one file.
const BATCH: usize = 500;
const BATCH_BYTES: usize = 8 << 20;

/// One call in so many is run under valgrind, if it is short.
const VALGRIND_EVERY: usize = 73;
const VALGRIND_BYTES: usize = 20_000;
const VALGRIND: [&str; 4] = ["valgrind", "-q", "--leak-check=no", "--error-exitcode=9"];

/// What the driver gave for a call.
pub enum Gave<'a> {
    /// There is no driver: the independent programs are judged alone.
    NoDriver,
    /// The driver ended before.
    Nothing,
    Left(&'a Left),
}

pub trait Trial {
    fn call(&self) -> Call;
    fn judge(&self, gave: Gave, tally: &mut Tally);
}

struct Waiting {
    trial: Box<dyn Trial>,
    call: Call,
    bytes: Vec<u8>,
}

pub struct Trials<'a> {
    driver: Option<&'a Driver>,
    waiting: Vec<Waiting>,
    done: usize,
    few: Few,
}

/// For valgrind: how many calls, their bytes, and what they left.
#[derive(Default)]
struct Few {
    calls: usize,
    input: Vec<u8>,
    output: Vec<u8>,
}

impl<'a> Trials<'a> {
    pub fn with(driver: Option<&'a Driver>) -> Trials<'a> {
        Trials { driver, waiting: Vec::new(), done: 0, few: Few::default() }
    }

    pub fn add(&mut self, trial: Box<dyn Trial>, tally: &mut Tally) {
        if self.driver.is_none() {
            return trial.judge(Gave::NoDriver, tally);
        }
        let call = trial.call();
        let bytes = call.to_driver();
        self.waiting.push(Waiting { trial, call, bytes });
        if self.waiting.len() == BATCH || self.waiting.iter().map(|waiting| waiting.bytes.len()).sum::<usize>() > BATCH_BYTES {
            self.run(tally);
        }
    }

    /// Runs what is waiting.
    fn run(&mut self, tally: &mut Tally) {
        let driver = match self.driver {
            Some(driver) => driver,
            None => return,
        };
        let batch = std::mem::take(&mut self.waiting);
        let label = format!("batch at call {}", self.done);
        let input: Vec<u8> = batch.iter().flat_map(|waiting| waiting.bytes.iter().copied()).collect();
        let behind = driver.run(&[], "behind", &input).expect("the driver runs");
        self.judge(&batch, &behind.output, tally);
        if behind.end.is_ok() {
            let before = driver.run(&[], "before", &input).expect("the driver runs");
            tally.own("a faulting region before each buffer", &label, ends_with(before, &behind.output));
        }
        tally.own("a faulting region behind each buffer", &label, behind.end);
        self.done += batch.len();
    }

    fn judge(&mut self, batch: &[Waiting], output: &[u8], tally: &mut Tally) {
        let mut rest = output;
        for (number, Waiting { trial, call, bytes }) in batch.iter().enumerate() {
            let from = rest;
            let left = call.left(&mut rest);
            trial.judge(left.as_ref().map_or(Gave::Nothing, Gave::Left), tally);
            if left.is_some() && (self.done + number) % VALGRIND_EVERY == 0 && bytes.len() <= VALGRIND_BYTES {
                self.few.calls += 1;
                self.few.input.extend(bytes);
                self.few.output.extend(&from[..from.len() - rest.len()]);
            }
        }
    }

    /// Runs the rest, and the few under valgrind.
    pub fn end(mut self, tally: &mut Tally) {
        let driver = match self.driver {
            Some(driver) => driver,
            None => return,
        };
        self.run(tally);
        if cfg!(not(target_arch = "x86_64")) {
            println!("no valgrind for x86-64 programs on this host: no call is run under it");
            return;
        }
        let ran = driver.run(&VALGRIND, "heap", &self.few.input).map_err(|error| format!("{}: {error}", VALGRIND[0]));
        let verdict = ran.and_then(|ran| ends_with(ran, &self.few.output));
        tally.own("a few calls under valgrind", &format!("all {}", self.few.calls), verdict);
        println!("{} calls were run under valgrind too", self.few.calls);
    }
}

/// The driver ended well and left the same as it did in another mode.
fn ends_with(ran: Ran, output: &[u8]) -> Verdict {
    ran.end?;
    same_entries("byte of all that is left", &ran.output, output)
}
