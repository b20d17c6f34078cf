//! All that is made from a seed, the real streams with what is lent to them too, and how one case of it is shown.

use crate::arguments::Arguments;
use crate::cases::{self, Case, Cases};
use crate::conversion::{Conversion, Conversions};
use crate::image_cases;
use crate::listings::{self, Listing, Listings};
use crate::queried;
use crate::questions::{self, Group, Groups};
use crate::real::RealStreams;
use crate::text_cases;
use crate::typed::{self, Typed, TypedTexts};

pub struct Made {
    pub cases: Cases,
    pub listings: Listings,
    pub groups: Groups,
    pub texts: Conversions,
    pub images: Conversions,
    pub typed: TypedTexts,
    pub real: RealStreams,
}

impl Made {
    pub fn from(seed: u64) -> Made {
        Made {
            cases: cases::all(seed),
            listings: listings::all(seed),
            groups: questions::all(seed),
            texts: text_cases::all(seed),
            images: image_cases::all(seed),
            typed: typed::all(seed),
            real: RealStreams::all(seed),
        }
    }

    pub fn numbers(&self) -> String {
        let streams =
            format!("{} streams, {} listings, {} groups of questions", self.cases.len(), self.listings.len(), self.groups.len());
        let texts = format!("{} texts, {} images, {} typed texts", self.texts.len(), self.images.len(), self.typed.len());
        format!("{streams}, {texts}, {} real streams", self.real.len())
    }

    /// Prints the cases that were asked for; whether there were any.
    pub fn show(&self, asked: &Arguments) -> bool {
        let shown = [
            asked.stream.map(|number| show_stream(&self.cases.make(number))),
            asked.listing.map(|number| show_listing(&self.listings.make(number))),
            asked.group.map(|number| show_group(&self.groups.make(number))),
            asked.text.map(|number| show_text(&self.texts.make(number), number)),
            asked.image.map(|number| show_conversion(&self.images.make(number))),
            asked.typed.map(|number| show_typed(&self.typed.make(number))),
            asked.pair.map(|number| show_pair(&self.real, number)),
        ];
        shown.iter().any(Option::is_some)
    }
}

fn show_stream(case: &Case) {
    println!("{}\ninput {:?}", case.kind, case.input);
    println!("head {:?}\nwork {:?}\ntable {:?}", case.head, case.work, case.table);
    println!("{:?}", records::build(&case.input, &case.work, &case.table));
}

fn show_pair(real: &RealStreams, number: usize) {
    println!("{}, {} rows", real.label(number), real.rows(number));
    show_stream(&real.case(number));
}

fn show_listing(case: &Listing) {
    println!("{}\ninput {:?}", case.kind, case.input);
    print!("{}", records::listing::listing(&case.input, usize::MAX).expect("no limit"));
}

fn show_group(group: &Group) {
    println!("{}: {:?}", group.kind, group.verdict);
    for (number, asked) in group.questions.iter().enumerate() {
        println!("question {number}: {:?}\nrows {:?}", asked.asking, asked.rows);
        println!("{:?}", asked.asking.expected());
    }
}

/// And the stream of its image with a query, where that is built.
fn show_text(case: &Conversion, number: usize) {
    show_conversion(case);
    if let Some(queried) = queried::of_text(case, number) {
        show_stream(&queried.case);
    }
}

fn show_conversion(case: &Conversion) {
    println!("{case:?}\n{:?}\n{:?}", String::from_utf8_lossy(&case.input), case.after());
}

fn show_typed(case: &Typed) {
    println!("{}\n{:?}\n{:?}", case.kind, String::from_utf8_lossy(&case.input), texts::told(&case.input));
}
