//! The tree records that are converted to texts: images of written trees, damaged ones, and those at the limits.

use crate::byte_damage::{changed, cut, dropped, put_in, AnyByte, ByteDamage};
use crate::conversion::{Conversion, Conversions, Known, KnownInput, Limits, OutputRoom, Way};
use crate::numbered::Kinds;
use crate::random::Random;
use crate::streams::{any_shape, BRANCH, LEAF};
use crate::text_cases::around_most_nodes;
use crate::texts_by_hand::{IMAGES, NO_IMAGES};
use crate::writings::{Written, MOST_NODES};

type Make = fn(&mut Random) -> KnownInput;

/// Each kind of random case, with how many there are.
const RANDOM: &Kinds<Conversion> = &[
    (2_000, |r| image("images", r, OutputRoom::Enough, any_image)),
    (700, |r| image("output exact", r, OutputRoom::Exact, any_image)),
    (700, |r| image("output one short", r, OutputRoom::OneShort, any_image)),
    (200, |r| image("output empty", r, OutputRoom::Empty, any_image)),
    (300, |r| image("output long", r, OutputRoom::Long, any_image)),
    (200, |r| image("many nodes", r, OutputRoom::Enough, large)),
    (200, |r| image("many nodes, output one short", r, OutputRoom::OneShort, large)),
    (1_500, |r| image("a byte changed", r, OutputRoom::Enough, |r| damaged(r, changed))),
    (800, |r| image("a byte put in", r, OutputRoom::Enough, |r| damaged(r, put_in))),
    (800, |r| image("a byte dropped", r, OutputRoom::Enough, |r| damaged(r, dropped))),
    (500, |r| image("cut", r, OutputRoom::Enough, |r| damaged(r, cut))),
    (1_500, |r| image("a record moved, dropped or put in", r, OutputRoom::Enough, |r| damaged(r, record_moved))),
    (500, |r| image("bytes behind an image", r, OutputRoom::Enough, |r| damaged(r, more_behind))),
    (200, |r| image("a byte of many changed", r, OutputRoom::Enough, large_damaged)),
    (500, |r| image("a pad of another label", r, OutputRoom::Enough, other_pad)),
    (500, |r| image("a label over 63", r, OutputRoom::Enough, label_over)),
    (500, |r| image("a root with a right sibling", r, OutputRoom::Enough, root_with_sibling)),
    (300, |r| image("two images", r, OutputRoom::Enough, two_images)),
    (700, |r| image("binary trees of any shape", r, OutputRoom::Enough, any_binary)),
    (500, |r| image("any bytes that often are records", r, OutputRoom::Enough, any_bytes)),
];

pub fn all(seed: u64) -> Conversions {
    let mut limits = Limits::of(Way::ToText);
    by_hand(&mut limits);
    each_byte(&mut limits);
    short_trees(&mut limits);
    most_nodes(&mut limits);
    long_trees(&mut limits);
    limits.behind(seed ^ IMAGES_APART, RANDOM)
}

/// Other numbers than those that make the streams and the texts.
const IMAGES_APART: u64 = 0x696d_6167_6573;

fn image(kind: &'static str, random: &mut Random, room: OutputRoom, make: Make) -> Conversion {
    let made = make(random);
    Conversion::lend(random, kind, Way::ToText, made, room)
}

// ---- images: `texts` makes them, and the text is that of the written tree

fn image_of(text: &[u8]) -> Vec<u8> {
    texts::image_of(text).expect("a text of a written tree")
}

fn any_image(random: &mut Random) -> KnownInput {
    let text = Written::small(random).text();
    (image_of(&text), Known::Result(text))
}

fn large(random: &mut Random) -> KnownInput {
    let text = Written::large(random).text();
    (image_of(&text), Known::Result(text))
}

// ---- damaged

/// A kind, a number near a limit, or any byte.
fn any_byte(random: &mut Random) -> u8 {
    match random.below(4) {
        0..=1 => random.pick(&[0, LEAF, BRANCH]),
        2 => random.pick(&[3, 5, 16, 17, 18, 62, 63, 64, 65, 127, 128, 191, 255]),
        _ => random.byte(),
    }
}

fn any_record(random: &mut Random) -> [u8; 2] {
    let label = random.below(64) as u8;
    random.pick(&[[LEAF, 0], [LEAF, 0], [BRANCH, label], [BRANCH, label], [LEAF, label], [BRANCH, 64 + label]])
}

fn record_moved(random: &mut Random, bytes: &mut Vec<u8>, _: AnyByte) {
    let mut records: Vec<[u8; 2]> = bytes.chunks(2).map(|record| [record[0], record[1]]).collect();
    let (from, to) = (random.below(records.len()), random.below(records.len()));
    match random.below(6) {
        0 => drop(records.remove(from)),
        1 => records.insert(to, records[from]),
        2 => records.swap(from, to),
        // one up or down, so that the number of subtrees stays right
        3 if from > 0 => records.swap(from, from - 1),
        4 => records[from] = any_record(random),
        _ => records.insert(to, any_record(random)),
    }
    *bytes = records.concat();
}

/// Records, which may make a larger image, or bytes.
fn more_behind(random: &mut Random, bytes: &mut Vec<u8>, any_byte: AnyByte) {
    let records: Vec<u8> = (0..random.between(1, 4)).flat_map(|_| any_record(random)).collect();
    let query = [16, 1, 1, 17, 0, 0, 0];
    match random.below(4) {
        0 => bytes.extend([LEAF, 0, BRANCH, random.below(64) as u8]),
        1 => bytes.extend(&query[..random.between(1, query.len())]),
        2 => bytes.push(any_byte(random)),
        _ => bytes.extend(records),
    }
}

fn damaged(random: &mut Random, damage: ByteDamage) -> KnownInput {
    let (mut bytes, _) = any_image(random);
    damage(random, &mut bytes, any_byte);
    (bytes, Known::Nothing)
}

fn large_damaged(random: &mut Random) -> KnownInput {
    let (mut bytes, _) = large(random);
    changed(random, &mut bytes, any_byte);
    (bytes, Known::Nothing)
}

/// The label of some record of a kind becomes another one.
fn relabelled(random: &mut Random, kind: u8, label: usize) -> KnownInput {
    let (mut bytes, _) = any_image(random);
    let records: Vec<usize> = (0..bytes.len()).step_by(2).filter(|&at| bytes[at] == kind).collect();
    bytes[random.pick(&records) + 1] = label as u8;
    (bytes, Known::Refused)
}

fn other_pad(random: &mut Random) -> KnownInput {
    let label = random.between(1, 255);
    relabelled(random, LEAF, label)
}

fn label_over(random: &mut Random) -> KnownInput {
    let label = random.between(64, 255);
    relabelled(random, BRANCH, label)
}

/// Two written trees as children of one, without the pad and the branch of that.
fn root_with_sibling(random: &mut Random) -> KnownInput {
    let two = [Written::small(random).text(), Written::small(random).text()].join(&b' ');
    let mut bytes = image_of(&[b"9(", two.as_slice(), b")"].concat());
    bytes.truncate(bytes.len() - 4);
    (bytes, Known::Refused)
}

fn two_images(random: &mut Random) -> KnownInput {
    ([any_image(random).0, any_image(random).0].concat(), Known::Refused)
}

/// Pads and branches, so that many are images and as many have a root with a right sibling.
fn any_binary(random: &mut Random) -> KnownInput {
    let (leaves, joining) = (random.between(1, 12), random.pick(&[0, 20, 50, 80, 100]));
    let kinds = any_shape(random, leaves, joining);
    let mut bytes: Vec<u8> =
        kinds.into_iter().flat_map(|kind| [kind, if kind == LEAF { 0 } else { random.below(64) as u8 }]).collect();
    if random.chance(50) {
        bytes.extend([LEAF, 0, BRANCH, random.below(64) as u8]);
    }
    (bytes, Known::Nothing)
}

fn any_bytes(random: &mut Random) -> KnownInput {
    ((0..random.below(30)).map(|_| any_byte(random)).collect(), Known::Nothing)
}

// ---- limits

fn by_hand(limits: &mut Limits) {
    for (text, image) in IMAGES {
        limits.add_in_all_rooms("by hand", (image.to_vec(), Known::Result(text.as_bytes().to_vec())));
    }
    for image in NO_IMAGES {
        limits.add_in_all_rooms("by hand", (image.to_vec(), Known::Refused));
    }
}

/// Every byte in each place of the request's image.
fn each_byte(limits: &mut Limits) {
    let (_, image) = IMAGES[0];
    for (at, byte) in (0..image.len()).flat_map(|at| (0..=255).map(move |byte| (at, byte))) {
        let input = [&image[..at], &[byte], &image[at + 1..]].concat();
        limits.add("limit: each byte, everywhere", (input, Known::Nothing), OutputRoom::Enough);
    }
}

/// All of few records out of those that matter.
fn short_trees(limits: &mut Limits) {
    let (many, few): (&[[u8; 2]], &[[u8; 2]]) = (&[[1, 0], [1, 5], [2, 0], [2, 63], [2, 64]], &[[1, 0], [2, 7]]);
    for (out_of, longest) in [(many, 5), (few, 9)] {
        let mut trees: Vec<Vec<[u8; 2]>> = vec![Vec::new()];
        for _ in 0..longest {
            trees = trees.iter().flat_map(|tree| out_of.iter().map(move |record| [tree.as_slice(), &[*record]].concat())).collect();
            for tree in &trees {
                limits.add("limit: all of few records", (tree.concat(), Known::Nothing), OutputRoom::Enough);
            }
        }
    }
}

/// Images, and such with a record too few or too many. 2,048 written nodes and more make an image that `texts` does not give: it is put
/// together from a smaller one, each node more the parent of the one before.
fn most_nodes(limits: &mut Limits) {
    let kind = "limit: 2,047 nodes and more";
    for written in around_most_nodes().into_iter().filter(|written| written.0.len() <= MOST_NODES) {
        let text = written.text();
        let image = image_of(&text);
        limits.add(kind, (image[..image.len() - 2].to_vec(), Known::Refused), OutputRoom::Enough);
        limits.add(kind, ([image.as_slice(), &[LEAF, 0]].concat(), Known::Refused), OutputRoom::Enough);
        for more in 0..=2 {
            let input = [image.as_slice(), &[LEAF, 0, BRANCH, 7].repeat(more)].concat();
            let is_small = written.0.len() + more <= MOST_NODES;
            let around = [b"7(".repeat(more), text.clone(), b")".repeat(more)].concat();
            let known = if is_small { Known::Result(around) } else { Known::Refused };
            limits.add_in_all_rooms(kind, (input, known));
        }
    }
}

/// Far too long: of one record, or of such that they would make a row or a chain.
fn long_trees(limits: &mut Limits) {
    let pads = [LEAF, 0].repeat(LONG);
    let inputs = [
        pads.clone(),
        [BRANCH, 5].repeat(LONG),
        [pads.as_slice(), &[BRANCH, 5].repeat(LONG - 1)].concat(),
        [&[LEAF, 0], [LEAF, 0, BRANCH, 5].repeat(LONG).as_slice()].concat(),
        [[LEAF, 0, LEAF, 0, BRANCH, 5].as_slice(), &[LEAF, 0, BRANCH, 5].repeat(LONG)].concat(),
        vec![0; LONG],
        vec![255; LONG + 1],
    ];
    for input in inputs {
        limits.add_in_all_rooms("limit: long trees", (input, Known::Refused));
    }
}

const LONG: usize = 40_000;
