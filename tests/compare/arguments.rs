//! The words of the command line.

const SEED: u64 = 20_260_101;

const USAGE: &str = "usage: compare [--seed N] [--stream N] [--listing N] [--group N] [--text N] [--image N] [--typed N] \
                     [--pair N] [DRIVER .. -- LIST .. -- TREE ..]";

/// The numbers are those of cases to be shown, and nothing is compared then.
#[derive(Default)]
pub struct Arguments {
    pub seed: u64,
    pub stream: Option<usize>,
    pub listing: Option<usize>,
    pub group: Option<usize>,
    pub text: Option<usize>,
    pub image: Option<usize>,
    pub typed: Option<usize>,
    pub pair: Option<usize>,
    pub driver: Vec<String>,
    pub list: Vec<String>,
    pub tree: Vec<String>,
}

impl Arguments {
    pub fn read() -> Arguments {
        let mut arguments = Arguments { seed: SEED, ..Arguments::default() };
        let mut words = std::env::args().skip(1).peekable();
        while words.peek().map_or(false, |word| word.starts_with("--")) {
            let (word, number) = (words.next(), words.next().and_then(|number| number.parse().ok()));
            arguments.set(word.as_deref(), number);
        }
        let words: Vec<String> = words.collect();
        match words.split(|word| word == "--").collect::<Vec<_>>()[..] {
            [[]] => (),
            [driver @ [_, ..], list @ [_, ..], tree @ [_, ..]] => {
                [arguments.driver, arguments.list, arguments.tree] = [driver, list, tree].map(<[String]>::to_vec);
            }
            _ => panic!("{USAGE}"),
        }
        arguments
    }

    fn set(&mut self, word: Option<&str>, number: Option<u64>) {
        let case = number.map(|number| number as usize);
        match (word, number) {
            (Some("--seed"), Some(number)) => self.seed = number,
            (Some("--stream"), Some(_)) => self.stream = case,
            (Some("--listing"), Some(_)) => self.listing = case,
            (Some("--group"), Some(_)) => self.group = case,
            (Some("--text"), Some(_)) => self.text = case,
            (Some("--image"), Some(_)) => self.image = case,
            (Some("--typed"), Some(_)) => self.typed = case,
            (Some("--pair"), Some(_)) => self.pair = case,
            _ => panic!("{USAGE}"),
        }
    }
}
