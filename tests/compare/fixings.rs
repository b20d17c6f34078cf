//! Fixings of all open places in all orders, one after another, each into a target as long as the built set's records, with a
//! question on each set in between.

use crate::asking::{Asking, Question};
use crate::garbage;
use crate::questions::{any_node, ask, Asked};
use crate::random::Random;
use crate::sets::{narrowed, Rows, WholeSet, NODES, USED};
use std::rc::Rc;

/// The nodes at which the places are fixed are mostly those of one row.
pub fn all_orders(random: &mut Random, set: &WholeSet, rows: &Rows) -> Vec<Asked> {
    let one = rows.as_ref().and_then(|rows| rows.get(random.below(rows.len().max(1))).cloned());
    let mut fixings: Vec<(u16, u16)> = Vec::new();
    for place in set.open_places() {
        let other = any_node(random, set, rows, place) % set.head[NODES];
        let node = one.as_ref().filter(|_| random.chance(85)).map_or(other, |row| row[place as usize - 1]);
        fixings.push((place, node));
    }
    let mut asked = Vec::new();
    add_orders(random, set, rows, &fixings, set.head[USED] as usize, &mut asked);
    asked
}

/// Each of the fixings first, then the others in all orders on the set that it gives by `records`.
fn add_orders(random: &mut Random, set: &WholeSet, rows: &Rows, fixings: &[(u16, u16)], target: usize, asked: &mut Vec<Asked>) {
    for (number, &(place, node)) in fixings.iter().enumerate() {
        let asking = fixing(random, set, place, node, target);
        let left = asking.expected();
        asked.push(Asked { asking, rows: rows.clone(), promised: true });
        let fixed = WholeSet { head: left.lent[4].shorts().try_into().unwrap(), table: left.lent[3].records().to_vec() };
        let fewer: Rows = rows.as_ref().map(|rows| Rc::new(narrowed(rows, place, node)));
        let which = random.below(5);
        asked.push(ask(random, &fixed, &fewer, which));
        let others = [&fixings[..number], &fixings[number + 1..]].concat();
        add_orders(random, &fixed, &fewer, &others, target, asked);
    }
}

fn fixing(random: &mut Random, set: &WholeSet, place: u16, node: u16, target: usize) -> Asking {
    let work = garbage::numbers(random, set.head[USED] as usize);
    let (target, fixed) = (garbage::records(random, target), garbage::head(random));
    Asking { set: set.clone(), work, question: Question::Fix { place, node, target, fixed } }
}
