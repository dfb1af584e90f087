//! The text of a book: a first line, a line for each strip, a last line; a book has one, and a text is that of one book.

use super::entry::{entries, Entry};
use crate::rectangle;
use crate::strip_book::{share_area, strips, FREED, HALF, RENTERS};

pub const FIRST: &str = "strip book 1: renter, slot, left bottom right top in 1/32 mm = in mm";
pub const LAST: &str = "end";

pub fn text(book: &[i32]) -> Vec<u8> {
    let strips = entries(book).into_iter().map(|entry| entry.line());
    let lines = [FIRST.to_string()].into_iter().chain(strips);
    let lines: Vec<String> = lines.chain([LAST.to_string()]).collect();
    (lines.join("\n") + "\n").into_bytes()
}

/// The book that a text is of, or the first line from which on it is none's: the lines before it begin the text of some book.
/// A line counts when its newline is there.
pub fn read(text: &[u8]) -> Result<Vec<i32>, usize> {
    let mut reading = Reading {
        book: FREED.repeat(RENTERS * HALF),
        next: 0,
        place: Place::Start,
    };
    let mut taken = 0;
    for line in text.split_inclusive(|byte| *byte == b'\n') {
        let whole = line.strip_suffix(b"\n");
        if !whole.is_some_and(|line| reading.goes_on(line)) {
            return Err(taken + 1);
        }
        taken += 1;
    }
    match reading.place {
        Place::End => Ok(reading.book),
        _ => Err(taken + 1),
    }
}

#[derive(Clone, Copy)]
enum Place {
    Start,
    Strips,
    End,
}

/// What the lines so far told.
struct Reading {
    book: Vec<i32>,
    /// The first slot of the table that the next strip may have.
    next: usize,
    place: Place,
}

impl Reading {
    fn goes_on(&mut self, line: &[u8]) -> bool {
        match self.place {
            Place::Start => {
                self.place = Place::Strips;
                line == FIRST.as_bytes()
            }
            Place::Strips if line == LAST.as_bytes() => {
                self.place = Place::End;
                true
            }
            Place::Strips => self.enters(line),
            Place::End => false,
        }
    }

    /// A strip that may stand here, told as a book tells it.
    fn enters(&mut self, line: &[u8]) -> bool {
        let Some(entry) = told(line).filter(|entry| entry.line().as_bytes() == line) else {
            return false;
        };
        let [renters, slots] = [RENTERS, HALF].map(|count| 0..count as i32);
        if !renters.contains(&entry.renter) || !slots.contains(&entry.slot) {
            return false;
        }
        let slot = entry.renter as usize * HALF + entry.slot as usize;
        let shared = strips(&self.book).any(|other| share_area(entry.strip, other));
        if slot < self.next || rectangle::faults(entry.strip) != [None, None] || shared {
            return false;
        }
        let [left, bottom, right, top] = entry.strip;
        self.book[slot * FREED.len()..][..FREED.len()]
            .copy_from_slice(&[1, left, bottom, right, top]);
        self.next = slot + 1;
        true
    }
}

/// The strip that the first six words of a line name, in whatever way.
fn told(line: &[u8]) -> Option<Entry> {
    let words = line.split(|byte| *byte == b' ').take(6);
    let number = |word| std::str::from_utf8(word).ok()?.parse().ok();
    let numbers: Vec<i32> = words.map(number).collect::<Option<_>>()?;
    match numbers[..] {
        [renter, slot, left, bottom, right, top] => Some(Entry {
            renter,
            slot,
            strip: [left, bottom, right, top],
        }),
        _ => None,
    }
}
