//! Commands for the program `book`, in runs that fill a renter's slots and empty them again, with slips and odd spaces between.

use super::book_asked::Asked;
use super::books::Book;
use super::grounds::Ground;
use super::{sides, slips};
use crate::disk::keeping::Keeper;
use crate::random::Random;
use crate::strip_book::{listing, HALF};

/// A line with no word in it, for the most part of spaces and comments.
const BLANK: &[&[u8]] = &[
    b"",
    b"   ",
    b"#",
    b"# book 0 0 0 20 10",
    b"\r",
    b"  \r",
    b"   # release 0 0\r",
    b"#\tshow",
];
const NO_COMMANDS: &[&str] = &["books", "Book", "BOOK", "list", "help", "?", "0", "enter"];
/// Words for a renter that there is not, in one spelling or another; three of them spell one that there is.
const ODD_RENTERS: &[&str] = &[
    "-1",
    "2",
    "7",
    "00",
    "-0",
    "001",
    "32",
    "-2147483648",
    "2147483647",
    "2147483648",
    "-2147483649",
    "1234567890",
    "4294967296",
    "99999999999999999999",
];
const ODD_SLOTS: &[&str] = &["-1", "32", "99", "-0", "007", "63", "4294967296", "-32"];

/// How the lines of one part of a run are chosen.
#[derive(Clone, Copy)]
enum Part {
    Anything,
    Fill(i32),
    Empty(i32),
}

struct Run {
    keeper: Keeper,
    lines: Vec<Vec<u8>>,
    ground: Ground,
}

/// The lines are joined by newlines; the last has its own or has none.
pub fn list(seed: u64, count: usize) -> Vec<u8> {
    let random = &mut Random::new(seed);
    let mut run = Run {
        keeper: Keeper::on(None).expect("no file is an empty book"),
        lines: Vec::new(),
        ground: Ground::Anywhere,
    };
    while run.lines.len() < count {
        run.cycle(random);
    }
    run.lines.truncate(count);
    let mut list = run.lines.join(&b'\n');
    if random.one_in(2) {
        list.push(b'\n');
    }
    list
}

impl Run {
    /// Both renters' slots are filled and emptied, in turn, and then whatever comes on little ground and anywhere.
    fn cycle(&mut self, random: &mut Random) {
        let first = random.between(0, 1);
        let second = 1 - first;
        let [roomy, crowded] = [Ground::roomy(random), Ground::crowded(random)];
        let parts = [
            (Part::Fill(first), roomy, 90),
            (Part::Anything, roomy, 10),
            (Part::Fill(second), roomy, 90),
            (Part::Anything, roomy, 25),
            (Part::Empty(first), roomy, 60),
            (Part::Anything, crowded, 25),
            (Part::Empty(second), roomy, 60),
            (Part::Empty(first), roomy, 60),
            (Part::Anything, crowded, 40),
            (Part::Anything, Ground::Anywhere, 30),
            (Part::Empty(first), roomy, 60),
            (Part::Empty(second), roomy, 60),
        ];
        for (part, ground, most) in parts {
            self.ground = ground;
            self.part(random, part, most);
        }
    }

    /// A filling goes on a little when all slots are in use, so that 17 is heard, and an emptying when none is.
    fn part(&mut self, random: &mut Random, part: Part, most: usize) {
        let mut beyond = 0;
        for _ in 0..most {
            let reached = match part {
                Part::Anything => false,
                Part::Fill(renter) => self.own(renter).len() == HALF,
                Part::Empty(renter) => self.own(renter).is_empty(),
            };
            beyond += usize::from(reached);
            if beyond > 3 {
                return;
            }
            self.line(random, part);
        }
    }

    fn own(&self, renter: i32) -> Vec<i32> {
        let list = listing(&self.keeper.book, renter, 5 * HALF).unwrap_or_default();
        list.chunks(5).map(|five| five[0]).collect()
    }

    fn line(&mut self, random: &mut Random, part: Part) {
        let line = if random.one_in(25) {
            random.pick(BLANK).to_vec()
        } else {
            let words = self.command(random, part);
            written(random, words)
        };
        self.keeper.answers(&line);
        self.lines.push(line);
    }

    fn command(&self, random: &mut Random, part: Part) -> Vec<String> {
        let book = Book(self.keeper.book.clone());
        let (renter, asked) = match part {
            Part::Fill(renter) if !random.one_in(8) => {
                (renter, Asked::Enter(self.ground.vacant(random, &book, 60)))
            }
            Part::Empty(renter) if !random.one_in(8) && !self.own(renter).is_empty() => {
                (renter, Asked::Release(random.pick(&self.own(renter))))
            }
            _ => {
                let renter = random.between(0, 1);
                (renter, Asked::any(random, &book, renter, self.ground, 3))
            }
        };
        if random.one_in(40) {
            return vec!["show".to_string()];
        }
        worded(random, renter, asked)
    }
}

/// A command word by word; now and then a word is an odd one.
fn worded(random: &mut Random, renter: i32, asked: Asked) -> Vec<String> {
    let mut words = vec![renter.to_string()];
    if random.one_in(20) {
        words[0] = random.pick(ODD_RENTERS).to_string();
    }
    let command = match asked {
        Asked::Enter(strip) => {
            words.extend(strip.map(|g| sides::spelled(random, g)));
            if random.one_in(16) {
                words[1 + random.below(4)] = sides::anywhere(random);
            }
            "book"
        }
        Asked::Release(slot) => {
            words.push(slot.to_string());
            if random.one_in(12) {
                words[1] = random.pick(ODD_SLOTS).to_string();
            }
            "release"
        }
        Asked::Strips(_) => "strips",
    };
    words.insert(0, command.to_string());
    words
}

/// The words as a line: mostly parted by one space each, and now and then wrong.
fn written(random: &mut Random, mut words: Vec<String>) -> Vec<u8> {
    let place = random.below(words.len());
    match random.below(100) {
        0 => words[0] = random.pick(NO_COMMANDS).to_string(),
        1 if words.len() > 1 => _ = words.remove(place),
        2 => words.push(random.pick(&["7", "0", "mm", "-1"]).to_string()),
        3 | 4 => words[place] = random.pick(sides::NO_NUMBERS).to_string(),
        5 => words[place] += random.pick(&["\t", "\r", "\0", " \t", "\u{a0}"]),
        _ => {}
    }
    let mut line = joined(random, &words);
    if random.one_in(50) {
        line = slips::slip(random, line);
    }
    match random.below(24) {
        0 => line.extend(b" # and a comment"),
        1 => line.extend(b"#release 0 0"),
        2 | 3 => line.push(b'\r'),
        4 => line.extend(b" # \r"),
        5 => line.extend(b"   "),
        6 => line.insert(0, b' '),
        _ => {}
    }
    line
}

fn joined(random: &mut Random, words: &[String]) -> Vec<u8> {
    let mut line = words[0].clone();
    for word in &words[1..] {
        line += if random.one_in(16) { "   " } else { " " };
        line += word;
    }
    line.into_bytes()
}
