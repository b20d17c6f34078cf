//! The cases: a stream with the buffers lent to its build.

use crate::call::{Buffer, Call, Function};
use crate::damage::{any_bytes, any_damage, byte_changed, byte_dropped, byte_put_in, cut, record_moved, Damage};
use crate::garbage;
use crate::limits;
use crate::numbered::{Kinds, Numbered};
use crate::random::Random;
use crate::streams::{
    any_places_seen, any_valid, any_with_q, dense, grown, large, leaves_all_pads, one_label, one_pad, some_pads, Stream,
};
use records::set::{Record, MOST_RECORDS};

pub struct Case {
    pub kind: &'static str,
    pub input: Vec<u8>,
    pub work: Vec<u64>,
    pub table: Vec<Record>,
    /// What stands in the head before the call, and in the position.
    pub head: [u16; 6],
    pub position: u64,
}

impl Case {
    pub fn call(&self) -> Call {
        let lent = vec![
            ("input byte", Buffer::Bytes(self.input.clone())),
            ("work entry", Buffer::Numbers(self.work.clone())),
            ("table entry", Buffer::Records(self.table.clone())),
            ("head number", Buffer::Shorts(self.head.to_vec())),
            ("position", Buffer::Numbers(vec![self.position])),
        ];
        Call { function: Function::Build, numbers: [0, 0], lent }
    }
}

/// How much is lent, beside what the build asks for.
#[derive(Clone, Copy)]
pub enum Room {
    /// As much as is asked for, or a little more.
    Enough,
    Exact,
    /// Far more.
    Long,
    /// Work one short, the table exact or one short too.
    WorkShort,
    TableShort,
    /// So many entries of work and of the table.
    Of(usize, usize),
}

/// In random cases no longer table is lent; a build that makes more is refused 6.
pub const LONGEST_TABLE: usize = 4_000;

/// Each kind of random case, with how many there are.
const RANDOM: &Kinds<Case> = &[
    (5_000, |r| enough("rules grown along rows", r, grown)),
    (3_000, |r| enough("most left sides have a rule", r, dense)),
    (400, |r| enough("states are the places seen", r, any_places_seen)),
    (600, |r| enough("query Q", r, any_with_q)),
    (600, |r| enough("some leaves are pads", r, some_pads)),
    (600, |r| enough("all leaves are pads", r, leaves_all_pads)),
    (300, |r| enough("no label but 0", r, one_label)),
    (100, |r| enough("the tree is one pad", r, one_pad)),
    (2_000, |r| any_room("work and table exact", r, Room::Exact)),
    (1_500, |r| any_room("work one short", r, Room::WorkShort)),
    (1_500, |r| any_room("table one short", r, Room::TableShort)),
    (500, |r| any_room("work and table long", r, Room::Long)),
    (3_000, |r| damaged("a byte changed", r, any_valid, byte_changed)),
    (1_500, |r| damaged("cut", r, any_valid, cut)),
    (2_000, |r| damaged("a byte dropped", r, any_valid, byte_dropped)),
    (2_000, |r| damaged("a byte put in", r, any_valid, byte_put_in)),
    (1_500, |r| damaged("a record moved or said again", r, any_valid, record_moved)),
    (500, |r| any_stream("any bytes", r)),
    (500, |r| damaged("any damage in a large stream", r, large, any_damage)),
    (200, |r| limits::many_rules("limit: 1,024 rules and more, any", r)),
];

pub type Cases = Numbered<Case, limits::Limit>;

pub fn all(seed: u64) -> Cases {
    Numbered::of(seed, RANDOM, limits::all(), |random, limit| {
        lend(random, limit.kind, limit.input.clone(), limit.room, MOST_RECORDS)
    })
}

fn enough(kind: &'static str, random: &mut Random, make: fn(&mut Random) -> Stream) -> Case {
    let input = make(random).bytes();
    lend(random, kind, input, Room::Enough, LONGEST_TABLE)
}

fn any_room(kind: &'static str, random: &mut Random, room: Room) -> Case {
    let input = any_valid(random).bytes();
    lend(random, kind, input, room, LONGEST_TABLE)
}

fn damaged(kind: &'static str, random: &mut Random, make: fn(&mut Random) -> Stream, damage: Damage) -> Case {
    let stream = make(random);
    let input = damage(random, &stream);
    lend(random, kind, input, Room::Enough, LONGEST_TABLE)
}

fn any_stream(kind: &'static str, random: &mut Random) -> Case {
    let input = any_bytes(random);
    lend(random, kind, input, Room::Enough, LONGEST_TABLE)
}

/// The case with its buffers, filled with garbage so that what stays unchanged shows.
pub fn lend(random: &mut Random, kind: &'static str, input: Vec<u8>, room: Room, longest: usize) -> Case {
    let (work, table) = match (room, records::needs(&input)) {
        (Room::Of(work, table), _) => (work, table),
        (_, Err(_)) => (random.below(40), random.below(20)),
        (_, Ok(needs)) if needs.records.map_or(true, |made| made > longest) => {
            (needs.work + random.below(9), random.between(1, longest))
        }
        (room, Ok(needs)) => lengths(random, room, needs.work, needs.records.unwrap_or(longest)),
    };
    let (work, table) = (garbage::numbers(random, work), garbage::records(random, table));
    Case { kind, input, work, table, head: garbage::head(random), position: garbage::position(random) }
}

fn lengths(random: &mut Random, room: Room, work: usize, made: usize) -> (usize, usize) {
    match room {
        Room::Enough => (work + random.below(9), made + random.below(9)),
        Room::Exact | Room::Of(..) => (work, made),
        Room::Long => (work + random.between(100, 2_000), made + random.between(100, 2_000)),
        Room::WorkShort => (work - 1, made.saturating_sub(random.below(2))),
        Room::TableShort => (work, made.saturating_sub(1)),
    }
}
