//! The texts that go through the program `tree`, and the judge: what it writes against what `texts` says, whole.

use crate::conversion::KnownInput;
use crate::numbered::{Kinds, Numbered};
use crate::program::Program;
use crate::random::Random;
use crate::tally::Tally;
use crate::text_cases::{any_damage, around_most_nodes, large, spaced, wrong_character, wrong_number};
use crate::texts_by_hand::TEXTS;
use crate::verdict::same_entries;

const MOST_INPUT: usize = 65_536;

pub struct Typed {
    pub kind: &'static str,
    pub input: Vec<u8>,
    /// So many bytes of it come at a time.
    pub piece: usize,
}

/// Each kind of random case, with how many there are.
const RANDOM: &Kinds<Typed> = &[
    (150, |r| any("blanks, line ends and comments anywhere", r, spaced)),
    (30, |r| any("many nodes", r, large)),
    (100, |r| any("a byte changed, put in or dropped, or cut", r, any_damage)),
    (40, |r| any("a wrong character between words", r, wrong_character)),
    (40, |r| any("a wrong number", r, wrong_number)),
];

/// A kind and its input.
type Limit = (&'static str, Vec<u8>);

pub type TypedTexts = Numbered<Typed, Limit>;

pub fn all(seed: u64) -> TypedTexts {
    let mut limits: Vec<Limit> = TEXTS.iter().map(|(text, _)| ("by hand", text.as_bytes().to_vec())).collect();
    limits.extend(around_most_nodes().iter().step_by(2).map(|written| ("limit: 2,047 nodes and more", written.text())));
    lengths(&mut limits);
    Numbered::of(seed ^ TYPED_APART, RANDOM, limits, |random, (kind, input)| Typed::of(kind, random, input.clone()))
}

/// Other numbers than those that make the texts for the library.
const TYPED_APART: u64 = 0x7479_7065_64;

impl Typed {
    fn of(kind: &'static str, random: &mut Random, input: Vec<u8>) -> Typed {
        // a long input in pieces of one byte would be as many calls of the system
        let least = input.len() / 1_000;
        Typed { kind, input, piece: random.pick(&[1, 5, 500, 4_096, MOST_INPUT, 2 * MOST_INPUT]).max(least) }
    }
}

fn any(kind: &'static str, random: &mut Random, make: fn(&mut Random) -> KnownInput) -> Typed {
    let (input, _) = make(random);
    Typed::of(kind, random, input)
}

/// A tree or refused 15 up to 65,536 bytes, and 14 beyond, before 15: what fills the text up stands before it, in it, behind it, or is
/// wrong.
fn lengths(limits: &mut Vec<Limit>) {
    let parts = [
        ("", " ", "9(5 6)"),
        ("9(5", "\n", "6)"),
        ("9(5 6)!", ")", ""),
        ("!", "(", "\n9(5 6)"),
        ("9(5 6)", " ", "/"),
        ("/9(5 6)", " ", ""),
        ("9(5 6)", " ", "7"),
        ("", "!", ""),
        ("", "(", ""),
        ("", "0", ""),
    ];
    for length in [MOST_INPUT - 1, MOST_INPUT, MOST_INPUT + 1, MOST_INPUT + 2, 100_000, 2 * MOST_INPUT, 3 * MOST_INPUT + 1] {
        for (start, filling, end) in parts {
            let text = format!("{start}{}{end}", filling.repeat(length - start.len() - end.len()));
            limits.push(("limit: 65,536 bytes and more", text.into_bytes()));
        }
    }
}

/// With no program nothing is compared: the input is counted.
pub fn judge(case: &Typed, number: usize, program: Option<&Program>, tally: &mut Tally) {
    let expected = texts::told(&case.input);
    let answer = match expected.as_slice() {
        b"refused 14\n" => 14,
        b"refused 15\n" => 15,
        _ => 0,
    };
    let told = program.map_or(Ok(expected.clone()), |program| program.text(&case.input, case.piece));
    let verdict = told.and_then(|told| same_entries("byte of standard output", &told, &expected));
    tally.typed(case, number, answer, expected.len(), verdict);
}
