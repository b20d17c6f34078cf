//! The texts that are converted to trees: valid ones with all that may stand in them, damaged ones, and those at the limits.

use crate::byte_damage::{changed, cut, dropped, put_in, ByteDamage};
use crate::conversion::{Conversion, Conversions, Known, KnownInput, Limits, OutputRoom, Way};
use crate::numbered::Kinds;
use crate::random::Random;
use crate::texts_by_hand::{IMAGES, TEXTS};
use crate::writings::{any_depths, any_gaps, chain, is_number, joined, row, Written, MOST_NODES};

type Make = fn(&mut Random) -> KnownInput;

/// Each kind of random case, with how many there are.
const RANDOM: &Kinds<Conversion> = &[
    (1_500, |r| text("as the way back writes them", r, OutputRoom::Enough, plain)),
    (5_000, |r| text("blanks, line ends and comments anywhere", r, OutputRoom::Enough, spaced)),
    (1_500, |r| text("output exact", r, OutputRoom::Exact, spaced)),
    (1_500, |r| text("output one short", r, OutputRoom::OneShort, spaced)),
    (300, |r| text("output empty", r, OutputRoom::Empty, spaced)),
    (700, |r| text("output long", r, OutputRoom::Long, spaced)),
    (300, |r| text("many nodes", r, OutputRoom::Enough, large)),
    (200, |r| text("many nodes, output one short", r, OutputRoom::OneShort, large)),
    (3_000, |r| text("a byte changed", r, OutputRoom::Enough, |r| damaged(r, changed))),
    (3_000, |r| text("a byte put in", r, OutputRoom::Enough, |r| damaged(r, put_in))),
    (3_000, |r| text("a byte dropped", r, OutputRoom::Enough, |r| damaged(r, dropped))),
    (1_000, |r| text("cut", r, OutputRoom::Enough, |r| damaged(r, cut))),
    (300, |r| text("a byte of many changed", r, OutputRoom::Enough, large_damaged)),
    (1_500, |r| text("a wrong character between words", r, OutputRoom::Enough, wrong_character)),
    (1_500, |r| text("a wrong number", r, OutputRoom::Enough, wrong_number)),
    (2_000, |r| text("a word moved, dropped or put in", r, OutputRoom::Enough, words_damaged)),
    (1_000, |r| text("any bytes that often are words", r, OutputRoom::Enough, any_bytes)),
];

pub fn all(seed: u64) -> Conversions {
    let mut limits = Limits::of(Way::ToTree);
    by_hand(&mut limits);
    single_bytes(&mut limits);
    short_texts(&mut limits);
    most_nodes(&mut limits);
    long_texts(&mut limits);
    limits.behind(seed ^ TEXTS_APART, RANDOM)
}

/// Other numbers than those that make the streams.
const TEXTS_APART: u64 = 0x7465_7874;

fn text(kind: &'static str, random: &mut Random, room: OutputRoom, make: Make) -> Conversion {
    let made = make(random);
    Conversion::lend(random, kind, Way::ToTree, made, room)
}

// ---- valid

fn plain(random: &mut Random) -> KnownInput {
    let text = Written::small(random).text();
    (text.clone(), Known::Back(text))
}

pub fn spaced(random: &mut Random) -> KnownInput {
    let written = Written::small(random);
    (written.spaced(random), Known::Back(written.text()))
}

pub fn large(random: &mut Random) -> KnownInput {
    let written = Written::large(random);
    (written.spaced(random), Known::Back(written.text()))
}

// ---- damaged: what becomes of it is left to `texts`, but where it is plainly wrong

/// One that may stand in a text, a neighbour of those, or any.
fn any_byte(random: &mut Random) -> u8 {
    match random.below(8) {
        0..=4 => random.pick(b"  \n!()0123456789"),
        5..=6 => random.pick(b"\t\r/\x0b\x1f\"'*:,-.\0"),
        _ => random.byte(),
    }
}

fn damaged(random: &mut Random, damage: ByteDamage) -> KnownInput {
    let (mut text, _) = if random.chance(30) { plain(random) } else { spaced(random) };
    damage(random, &mut text, any_byte);
    (text, Known::Nothing)
}

pub fn any_damage(random: &mut Random) -> KnownInput {
    let damage = random.pick(&[changed as ByteDamage, put_in, dropped, cut]);
    damaged(random, damage)
}

fn large_damaged(random: &mut Random) -> KnownInput {
    let (mut text, _) = large(random);
    changed(random, &mut text, any_byte);
    (text, Known::Nothing)
}

#[rustfmt::skip]
const WRONG: &[&[u8]] = &[
    b"/", b"/", b"//", b"// a tree", b"\t", b"\t", b"\r", b"\r\n", b"\0", b"\x0b", b"\x0c", b"\x1f", b"\"", b"'", b"*", b",", b"-", b"+",
    b".", b":", b";", b"[", b"]", b"{", b"}", b"#", b"%", b"\\", b"a", b"x", b"~", b"\x7f", b"\x80", b"\x85", b"\xa0", b"\xb0", b"\xff",
];

pub fn wrong_character(random: &mut Random) -> KnownInput {
    let words = Written::small(random).words();
    let (wrong, at) = (random.pick(WRONG), random.between(0, words.len()));
    let (mut gaps, mut gap) = (any_gaps(random), 0);
    let text = joined(&words, |separates| {
        gap += 1;
        [gaps(separates), if gap - 1 == at { wrong.to_vec() } else { Vec::new() }].concat()
    });
    (text, Known::Refused)
}

/// Also numbers that are labels in 8, 16, 32 or 64 bits.
#[rustfmt::skip]
const NO_LABELS: &[&str] = &[
    "00", "05", "063", "000", "0123", "64", "65", "99", "100", "128", "255", "256", "261", "319", "512", "65536", "65541", "4294967301",
    "18446744073709551616", "18446744073709551621", "184467440737095516210", "00000000000000000000005",
];

pub fn wrong_number(random: &mut Random) -> KnownInput {
    let mut words = Written::small(random).words();
    let numbers: Vec<usize> = (0..words.len()).filter(|&at| is_number(&words[at])).collect();
    let number = random.below(300);
    words[random.pick(&numbers)] = match random.below(3) {
        0 => format!("{}", 64 + number).into_bytes(),
        1 => format!("0{number}").into_bytes(),
        _ => random.pick(NO_LABELS).as_bytes().to_vec(),
    };
    (joined(&words, any_gaps(random)), Known::Refused)
}

fn words_damaged(random: &mut Random) -> KnownInput {
    let mut words = Written::small(random).words();
    let (from, to) = (random.below(words.len()), random.below(words.len()));
    match random.below(5) {
        0 => drop(words.remove(from)),
        1 => words.swap(from, to),
        2 => words.insert(to, words[from].clone()),
        3 => drop(words.splice(from..from, [b"(".to_vec(), b")".to_vec()])),
        _ => words.insert(to, random.pick(&[b"(" as &[u8], b")", b"7"]).to_vec()),
    }
    (joined(&words, any_gaps(random)), Known::Nothing)
}

fn any_bytes(random: &mut Random) -> KnownInput {
    ((0..random.below(30)).map(|_| any_byte(random)).collect(), Known::Nothing)
}

// ---- limits

fn by_hand(limits: &mut Limits) {
    for (text, back) in TEXTS {
        let known = if back.is_empty() { Known::Refused } else { Known::Back(back.as_bytes().to_vec()) };
        limits.add_in_all_rooms("by hand", (text.as_bytes().to_vec(), known));
    }
    for (text, image) in IMAGES {
        limits.add_in_all_rooms("by hand", (text.as_bytes().to_vec(), Known::Result(image.to_vec())));
    }
}

/// Every byte alone, in each place of a small text and between any two of its bytes, and in a comment behind it.
fn single_bytes(limits: &mut Limits) {
    let small = b"9(5 6)";
    let mut add = |input: Vec<u8>| limits.add("limit: each byte, everywhere", (input, Known::Nothing), OutputRoom::Enough);
    for byte in 0..=255 {
        add(vec![byte]);
        (0..=small.len()).for_each(|at| add([&small[..at], &[byte], &small[at..]].concat()));
        (0..small.len()).for_each(|at| add([&small[..at], &[byte], &small[at + 1..]].concat()));
        add([small, b"!".as_slice(), &[byte], b"7"].concat());
    }
}

/// All texts of few bytes out of those that matter; 60 is a label and 66 is none.
fn short_texts(limits: &mut Limits) {
    let mut texts: Vec<Vec<u8>> = vec![Vec::new()];
    for length in 0..=LONGEST_SHORT {
        for text in &texts {
            limits.add("limit: all of at most five bytes", (text.clone(), Known::Nothing), OutputRoom::Enough);
        }
        if length < LONGEST_SHORT {
            texts = texts.iter().flat_map(|text| b" \n!()06/".map(|byte| [text.as_slice(), &[byte]].concat())).collect();
        }
    }
}

const LONGEST_SHORT: usize = 5;

/// As the way back writes them, with much between, and with a bracket too few or too many.
fn most_nodes(limits: &mut Limits) {
    let kind = "limit: 2,047 nodes and more";
    for written in around_most_nodes() {
        let (text, spaced) = (written.text(), written.spaced(&mut Random::of(9, written.0.len() as u64)));
        limits.add(kind, (text[..text.len() - 1].to_vec(), Known::Refused), OutputRoom::Enough);
        limits.add(kind, ([text.as_slice(), b")"].concat(), Known::Refused), OutputRoom::Enough);
        for input in [text, spaced] {
            limits.add_in_all_rooms(kind, (input, known_of(&written)));
        }
    }
}

fn known_of(written: &Written) -> Known {
    if written.0.len() > MOST_NODES {
        Known::Refused
    } else {
        Known::Back(written.text())
    }
}

/// Written trees of 2,046 nodes to 2,049, in a row, in depth and mixed.
pub fn around_most_nodes() -> Vec<Written> {
    let mut random = Random::of(8, 8);
    let mut all = Vec::new();
    for nodes in MOST_NODES - 1..=MOST_NODES + 2 {
        let mut shapes = vec![row(nodes), chain(nodes)];
        shapes.extend([2, 30, 50, 70, 98].map(|deeper| any_depths(&mut random, nodes, deeper)));
        for shape in &shapes {
            all.extend([0, 63].map(|label| Written::labelled(shape, || label)));
            all.push(Written::any(&mut random, shape));
        }
    }
    all
}

/// Much of one thing, before, in and behind a text.
fn long_texts(limits: &mut Limits) {
    for made in long_cases(LONG) {
        limits.add_in_all_rooms("limit: long texts", made);
    }
}

const LONG: usize = 70_000;

/// In each there are at least so many bytes of one thing.
fn long_cases(length: usize) -> Vec<KnownInput> {
    let many = |piece: &str| piece.repeat(length / piece.len() + 1);
    let right = [
        (many(" ") + "5", "5"),
        ("5".to_string() + &many("\n"), "5"),
        (format!("9(5{}6)", many(" \n")), "9(5 6)"),
        (format!("!{}\n9(5 6)", many("(5")), "9(5 6)"),
        (format!("9(5 6)!{}", many(")//")), "9(5 6)"),
        (format!("9(5{}6)", many("!\n")), "9(5 6)"),
        (format!("9({})", many("! nothing\n")), "9"),
    ];
    let wrong = [
        many("("),
        many(")"),
        many("5("),
        many("5()"),
        many("1"),
        many("0"),
        many("!"),
        many(" "),
        many("!\n"),
        format!("9({})", many("5 ")),
        format!("9({})", many("5()")),
        format!("9{}", many("()")),
        format!("9({}", many(" ")),
        format!("9(5 6){}/", many(" ")),
        format!("9(5 6){}7", many("!\n")),
    ];
    let right = right.into_iter().map(|(text, back)| (text.into_bytes(), Known::Back(back.as_bytes().to_vec())));
    right.chain(wrong.into_iter().map(|text| (text.into_bytes(), Known::Refused))).collect()
}
