//! Texts of books on disk, and what can befall them, one kind of damage after the other.

use super::book_runs::half_full;
use super::damage_bytes::*;
use super::damage_strips::*;
use super::grounds::Ground;
use crate::disk::entry::{entries, Entry};
use crate::disk::text::{text, FIRST, LAST};
use crate::random::Random;

/// A text, and what befell it.
pub type Damaged = (&'static str, Vec<u8>);

/// How a text is damaged; it may happen to stay, or to become, the text of a book.
type Damage = fn(&mut Random, &Text) -> Vec<u8>;

/// The text of a book with two strips or more.
pub struct Text {
    pub entries: Vec<Entry>,
    pub bytes: Vec<u8>,
}

const KINDS: [(&str, Damage); 25] = [
    ("nothing", |_, text| text.bytes.clone()),
    ("a line left out", line_left_out),
    ("a line doubled", line_doubled),
    ("a line exchanged with the next", lines_exchanged),
    ("a digit changed on the grid", |random, text| {
        digit_changed(random, text, true)
    }),
    ("a digit changed in the millimetres", |random, text| {
        digit_changed(random, text, false)
    }),
    ("a space added", space_added),
    ("a space taken", space_taken),
    ("a slot used twice", slot_twice),
    ("strips that share area", area_shared),
    ("a strip off the table", off_the_table),
    ("a strip without area", without_area),
    ("a renter or a slot that there is not", no_such_slot),
    ("slots out of order", out_of_order),
    ("no last line", |_, text| {
        text.bytes[..text.bytes.len() - LAST.len() - 1].to_vec()
    }),
    ("no last newline", |_, text| {
        text.bytes[..text.bytes.len() - 1].to_vec()
    }),
    ("bytes behind the last line", bytes_behind),
    ("a carriage return before a newline", carriage_return),
    ("another first line", another_first_line),
    ("an empty file", |_, _| Vec::new()),
    ("a line of a million bytes", million_bytes),
    ("NUL bytes", nul_bytes),
    ("a number spelled in another way", spelled_otherwise),
    ("cut short", |random, text| {
        text.bytes[..random.below(text.bytes.len())].to_vec()
    }),
    ("a byte changed", byte_changed),
];

/// Each kind in turn, on another book each time.
pub fn texts(seed: u64, count: usize) -> impl Iterator<Item = Damaged> {
    let mut random = Random::new(seed);
    (0..count).map(move |k| {
        let text = some_text(&mut random);
        let (what, damage) = KINDS[k % KINDS.len()];
        (what, damage(&mut random, &text))
    })
}

impl Text {
    /// With their newlines.
    pub fn lines(&self) -> Vec<Vec<u8>> {
        let lines = self.bytes.split_inclusive(|byte| *byte == b'\n');
        lines.map(<[u8]>::to_vec).collect()
    }

    /// The text that would tell these, in the order given.
    pub fn of(entries: &[Entry]) -> Vec<u8> {
        let lines = entries.iter().map(|entry| entry.line() + "\n");
        format!("{FIRST}\n{}{LAST}\n", lines.collect::<String>()).into_bytes()
    }

    /// The places of these bytes.
    pub fn places(&self, wanted: impl Fn(u8) -> bool) -> Vec<usize> {
        let places = 0..self.bytes.len();
        places.filter(|k| wanted(self.bytes[*k])).collect()
    }

    pub fn with(&self, place: usize, bytes: &[u8]) -> Vec<u8> {
        [&self.bytes[..place], bytes, &self.bytes[place..]].concat()
    }
}

fn some_text(random: &mut Random) -> Text {
    loop {
        let ground = Ground::any(random);
        let book = half_full(random, ground);
        let entries = entries(&book.0);
        if entries.len() >= 2 {
            let bytes = text(&book.0);
            return Text { entries, bytes };
        }
    }
}
