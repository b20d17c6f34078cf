//! Times calls in turns, and prints their medians, a line for each call.

use std::hint::black_box;
use std::time::Instant;

/// Which of the three is timed: the library, the ordinary program, and what else stands beside them.
pub const LIBRARY: usize = 0;
pub const ORDINARY: usize = 1;
pub const OTHER: usize = 2;

/// In nanoseconds, of each of the three that is timed.
pub type Medians = [Option<f64>; 3];

/// A turn takes at least so many nanoseconds, with more calls where one is short, so that reading the clock is not felt.
const SHORTEST_TURN: f64 = 20_000.0;

/// The single calls by which it is told how many make a turn.
const FIRST_CALLS: usize = 10;

/// The time of a turn is that of one of its calls.
pub struct Times {
    turns: [Vec<f64>; 3],
    /// How many calls make a turn of each; none where the first turn will tell.
    calls: [Option<usize>; 3],
}

impl Times {
    pub fn of_single_calls() -> Times {
        Times { turns: Default::default(), calls: [Some(1); 3] }
    }

    pub fn of_turns() -> Times {
        Times { turns: Default::default(), calls: [None; 3] }
    }

    /// Times a turn of one of the three and gives the last call's answer.
    pub fn of<A>(&mut self, which: usize, mut call: impl FnMut() -> A) -> A {
        let calls = *self.calls[which].get_or_insert_with(|| calls_of_a_turn(&mut call));
        let (time, answer) = time(calls, call);
        self.turns[which].push(time);
        answer
    }

    pub fn medians(self) -> Medians {
        self.turns.map(|mut times| {
            times.sort_by(f64::total_cmp);
            times.get(times.len() / 2).copied()
        })
    }
}

fn calls_of_a_turn<A>(mut call: impl FnMut() -> A) -> usize {
    let shortest = (0..FIRST_CALLS).map(|_| time(1, &mut call).0).fold(f64::INFINITY, f64::min);
    (SHORTEST_TURN / shortest).ceil() as usize
}

/// How long one of so many calls takes, and what the last one answers.
fn time<A>(calls: usize, mut call: impl FnMut() -> A) -> (f64, A) {
    let start = Instant::now();
    for _ in 1..calls {
        black_box(call());
    }
    let answer = black_box(call());
    (start.elapsed().as_nanos() as f64 / calls as f64, answer)
}

/// The longest name of a set, and a blank.
const SET: usize = 58;

/// What is timed beside the library, over the lines to come.
pub fn print_titles(set: &str, others: &[&str]) {
    let beside: String = others.iter().map(|other| format!("{other:>10}{:>8}", "ratio")).collect();
    println!("{set:<SET$}{:<18}{:>10}{beside}", "call", "library");
}

pub fn print_line(set: &str, call: &str, [library, ordinary, other]: Medians) {
    let library = library.expect("the library's times");
    let beside = |other: Option<f64>| other.map_or(String::new(), |other| format!("{other:>10.0}{:>8.2}", library / other));
    println!("{set:<SET$}{call:<18}{library:>10.0}{}{}", beside(ordinary), beside(other));
}
