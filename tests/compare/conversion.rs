//! One conversion, text to tree or tree to text, with all that is lent to it: the call, what `texts` says that it leaves, and the judge.

use crate::call::{Buffer, Call, Function, Left};
use crate::garbage;
use crate::numbered::{Kinds, Numbered};
use crate::random::Random;
use crate::tally::{Tally, What};
use crate::trials::{Gave, Trial};
use crate::verdict::{same, same_entries, Verdict};
use texts::After;

#[derive(Clone, Copy, Debug, PartialEq)]
pub enum Way {
    ToTree,
    ToText,
}

/// What is known of a conversion from how its input was made, and so by none of the programs.
#[derive(Clone, Debug)]
pub enum Known {
    Nothing,
    /// The input is refused 15.
    Refused,
    /// What is written where there is room.
    Result(Vec<u8>),
    /// What the way back makes of it.
    Back(Vec<u8>),
}

/// How long the output is, beside what is written.
#[derive(Clone, Copy)]
pub enum OutputRoom {
    /// As long, or a little longer.
    Enough,
    Exact,
    OneShort,
    Empty,
    /// Far longer.
    Long,
}

const ROOMS: [OutputRoom; 5] = [OutputRoom::Enough, OutputRoom::Exact, OutputRoom::OneShort, OutputRoom::Empty, OutputRoom::Long];

#[derive(Clone, Debug)]
pub struct Conversion {
    pub kind: &'static str,
    pub way: Way,
    pub input: Vec<u8>,
    pub known: Known,
    /// What stands in the output, and in the number of bytes written, before the call.
    pub output: Vec<u8>,
    pub bytes: u64,
}

/// What is converted, with what is known of it.
pub type KnownInput = (Vec<u8>, Known);

/// For an input that is refused the output is not longer than so.
const LONGEST_OUTPUT: usize = 10_000;

impl Way {
    fn result(self, input: &[u8]) -> Option<Vec<u8>> {
        match self {
            Way::ToTree => texts::image_of(input),
            Way::ToText => texts::text_of(input),
        }
    }

    fn back(self) -> Way {
        match self {
            Way::ToTree => Way::ToText,
            Way::ToText => Way::ToTree,
        }
    }
}

impl Conversion {
    /// With its buffers, filled with garbage so that what stays unchanged shows.
    pub fn lend(random: &mut Random, kind: &'static str, way: Way, (input, known): KnownInput, room: OutputRoom) -> Conversion {
        let length = match (way.result(&input).map(|result| result.len()), room) {
            (Some(length), OutputRoom::Enough) => length + random.below(9),
            (Some(length), OutputRoom::Exact) => length,
            (Some(length), OutputRoom::OneShort) => length - 1,
            (Some(length), OutputRoom::Long) => length + random.between(100, 2_000),
            (_, OutputRoom::Empty) => 0,
            // mostly enough for whatever such an input could be taken for
            (None, _) if random.chance(70) => LONGEST_OUTPUT.min(4 * input.len() + 6),
            (None, _) => random.below(20),
        };
        Conversion { kind, way, input, known, output: garbage::bytes(random, length), bytes: random.any() }
    }

    pub fn call(&self) -> Call {
        let (function, input, output) = match self.way {
            Way::ToTree => (Function::TextToTree, "byte of the text", "byte of the tree"),
            Way::ToText => (Function::TreeToText, "byte of the tree", "byte of the text"),
        };
        let lent = vec![
            (input, Buffer::Bytes(self.input.clone())),
            (output, Buffer::Bytes(self.output.clone())),
            ("bytes written", Buffer::Numbers(vec![self.bytes])),
        ];
        Call { function, numbers: [0, 0], lent }
    }

    /// By `texts`.
    pub fn after(&self) -> After {
        match self.way {
            Way::ToTree => texts::text_to_tree(&self.input, &self.output),
            Way::ToText => texts::tree_to_text(&self.input, &self.output),
        }
    }

    /// The number of bytes written is told only with an answer.
    fn expected(&self, after: &After) -> Left {
        let bytes = after.answer.map_or(self.bytes, |bytes| bytes as u64);
        let lent = vec![Buffer::Bytes(self.input.clone()), Buffer::Bytes(after.output.clone()), Buffer::Numbers(vec![bytes])];
        Left { answer: after.answer.err().unwrap_or(0), lent }
    }

    /// The conversion back of what is written here, whatever the output; none where the input is refused 15. What the library wrote
    /// is compared with the same bytes, so that the way there and back is the library's.
    pub fn back(&self, random: &mut Random, kind: &'static str) -> Option<Conversion> {
        let result = self.way.result(&self.input)?;
        let known = match (self.way, &self.known) {
            (_, Known::Back(back)) => Known::Result(back.clone()),
            // no two trees have the same image: back from a text are the very bytes
            (Way::ToText, _) => Known::Result(self.input.clone()),
            (Way::ToTree, _) => Known::Back(result.clone()),
        };
        let room = if random.chance(50) { OutputRoom::Exact } else { OutputRoom::Enough };
        Some(Conversion::lend(random, kind, self.way.back(), (result, known), room))
    }
}

/// Conversions that are made once, of one way.
pub struct Limits {
    way: Way,
    all: Vec<Limit>,
}

pub struct Limit {
    kind: &'static str,
    way: Way,
    made: KnownInput,
    room: OutputRoom,
}

pub type Conversions = Numbered<Conversion, Limit>;

impl Limits {
    pub fn of(way: Way) -> Limits {
        Limits { way, all: Vec::new() }
    }

    pub fn add(&mut self, kind: &'static str, made: KnownInput, room: OutputRoom) {
        self.all.push(Limit { kind, way: self.way, made, room });
    }

    pub fn add_in_all_rooms(&mut self, kind: &'static str, made: KnownInput) {
        ROOMS.into_iter().for_each(|room| self.add(kind, made.clone(), room));
    }

    /// Behind random ones.
    pub fn behind(self, seed: u64, kinds: &'static Kinds<Conversion>) -> Conversions {
        Numbered::of(seed, kinds, self.all, |random, Limit { kind, way, made, room }| {
            Conversion::lend(random, kind, *way, made.clone(), *room)
        })
    }
}

pub struct ConversionTrial {
    pub what: What,
    pub case: Conversion,
    pub number: usize,
}

impl Trial for ConversionTrial {
    fn call(&self) -> Call {
        self.case.call()
    }

    fn judge(&self, gave: Gave, tally: &mut Tally) {
        let after = self.case.after();
        let expected = self.case.expected(&after);
        let known = check_known(&self.case, &after);
        let verdict = known.and_then(|()| match gave {
            Gave::NoDriver => Ok(()),
            Gave::Nothing => Err("the driver gave no answer".to_string()),
            Gave::Left(left) => left.is(&self.call(), &expected),
        });
        tally.conversion(self.what, &self.case, self.number, expected.answer, verdict);
    }
}

/// `texts` says what was known before.
fn check_known(case: &Conversion, after: &After) -> Verdict {
    let result = case.way.result(&case.input);
    same("refused 15 by texts", after.answer == Err(15), result.is_none())?;
    match (&case.known, result) {
        (Known::Nothing, _) | (Known::Refused, None) => Ok(()),
        (Known::Refused, Some(result)) => Err(format!("known to be refused, and by texts it is {result:?}")),
        (_, None) => Err("known to be a tree, and refused by texts".to_string()),
        (Known::Result(known), Some(result)) => same_entries("byte by texts and as known:", &result, known),
        (Known::Back(known), Some(result)) => {
            let back = case.way.back().result(&result).ok_or("no way back by texts")?;
            same_entries("byte of the way back by texts and as known:", &back, known)
        }
    }
}
