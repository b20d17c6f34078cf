//! Times the library's functions in turns with ordinary programs and, for the questions, with plain passes that make the same checks,
//! and holds their answers together. Prints tables of medians in nanoseconds: builds, also as nodes, rules and arity grow and of real
//! streams, the questions, and the conversions between a text and a tree.

mod builds;
mod kinds;
mod nodes;
mod ordinary;
mod plain;
mod questions;
mod random;
mod real;
mod texts;
mod times;
mod workloads;

use builds::{Buffers, BUILD_TURNS};
use random::Random;
use tarnsatchel::MOST_RECORDS;
use times::{print_line, print_titles};
use workloads::{
    any_shape, any_states, comb, many_of_one_label, places_seen, query_q, query_q_behind, rule_said_twice, rules_for_a_pad, Own,
    RULES_OF_Q,
};

/// How often each call but a build is timed.
const TURNS: usize = 301;

/// A name and its stream.
type Named = (String, Vec<u8>);

fn main() {
    let mut buffers = Buffers::new();
    builds::hold_to_the_check(&rule_said_twice(), &mut buffers);
    builds::hold_to_the_pads(&rules_for_a_pad(), &mut buffers);
    println!("medians in nanoseconds, {TURNS} turns, builds {BUILD_TURNS}");
    println!("builds: 'ordinary' checks that no rule is said twice, and 'unchecked' is the same without that check");
    print_titles("set", &["ordinary", "unchecked"]);
    for (name, input) in sets() {
        let name = with_records(name, &input, &mut buffers);
        print_line(&name, "build and count", builds::time_build_and_count(&input, &mut buffers));
        print_line(&name, "build", builds::time_build(&input, &mut buffers));
    }
    for (title, all) in [
        ("as nodes and arity grow", growth()),
        ("many rules: of many labels, of one", many_rules()),
        ("random shapes, most slots filled", random_shapes(Own::Few, &[(2, 4), (2, 6), (3, 3), (3, 4)])),
        ("the same, a rule for every left side", random_shapes(Own::All, &[(2, 4), (2, 8), (3, 2), (3, 3)])),
    ] {
        print_titles(title, &["ordinary", "unchecked"]);
        for (name, input) in all {
            let name = with_records(name, &input, &mut buffers);
            print_line(&name, "build and count", builds::time_build_and_count(&input, &mut buffers));
        }
    }
    print_titles("real streams", &["ordinary", "unchecked"]);
    real::time_all(&mut buffers);
    println!("questions: 'plain' makes the library's checks and clears the work");
    print_titles("set", &["ordinary", "plain"]);
    for (name, input) in sets() {
        questions::time_all(&with_records(name, &input, &mut buffers), builds::built(&input, &mut buffers));
    }
    texts::time_all();
}

fn with_records(name: String, input: &[u8], buffers: &mut Buffers) -> String {
    format!("{name}, {} records", builds::built(input, buffers).records.len())
}

fn sets() -> Vec<Named> {
    let wide = |leaves: usize| [comb(leaves), places_seen(4)].concat();
    let fits = |&leaves: &usize| ordinary::build_unchecked(&wide(leaves)).records.len() <= MOST_RECORDS;
    let leaves = (1..).take_while(fits).last().unwrap_or(1);
    vec![with_q(1_001), with_q(4_095), (format!("{} nodes, widest", 2 * leaves - 1), wide(leaves))]
}

fn growth() -> Vec<Named> {
    let arity = [1, 2, 3, 4].map(|arity| (format!("129 nodes, arity {arity}"), [comb_of(129), places_seen(arity)].concat()));
    [501, 1_001, 2_001, 4_095].map(with_q).into_iter().chain(arity).collect()
}

fn with_q(nodes: usize) -> Named {
    (format!("{nodes} nodes, Q"), [comb_of(nodes), query_q()].concat())
}

/// So many nodes, an odd number.
fn comb_of(nodes: usize) -> Vec<u8> {
    comb(nodes.div_ceil(2))
}

fn many_rules() -> Vec<Named> {
    let spread = |nodes: usize, rules: usize| {
        (format!("{nodes} nodes, {rules} rules"), [comb_of(nodes), query_q_behind(rules - RULES_OF_Q)].concat())
    };
    let of_one = |nodes: usize| (format!("{nodes} nodes, 1024 rules of one label"), [comb_of(nodes), many_of_one_label()].concat());
    let all = [3, 63, 1_001].into_iter().flat_map(|nodes| [11, 128, 512, 1_024].map(|rules| spread(nodes, rules)));
    all.chain([63, 1_001].map(of_one)).collect()
}

/// Arity and states such that the records fit.
fn random_shapes(own: Own, sizes: &[(usize, usize)]) -> Vec<Named> {
    const LEAVES: usize = 151;
    let mut random = Random(2026);
    let all = sizes.iter().map(|&(arity, states)| {
        let (tree, query) = (any_shape(&mut random, LEAVES), any_states(&mut random, arity, states, own));
        (format!("{} nodes, arity {arity}, {states} states", tree.len() / 2), [tree, query].concat())
    });
    all.collect()
}
