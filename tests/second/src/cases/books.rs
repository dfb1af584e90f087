//! Strip books, slot by slot, and the lines that lend them: `enter`, `release`, `strips`.

use super::line::Line;
use super::windows::Window;
use crate::strip_book::{FREED, HALF, RENTERS};

#[derive(Clone)]
pub struct Book(pub Vec<i32>);

/// A renter, and a slot of its half.
pub type Slot = [usize; 2];

/// All slots, in the order of the table.
pub fn slots() -> impl Iterator<Item = Slot> {
    (0..RENTERS * HALF).map(|k| [k / HALF, k % HALF])
}

/// Where a slot's five numbers begin in the table.
fn start([renter, slot]: Slot) -> usize {
    (renter * HALF + slot) * FREED.len()
}

impl Book {
    pub fn empty() -> Book {
        Book(FREED.repeat(RENTERS * HALF))
    }

    /// All slots in use: squares of one grid step, eight in a row, the first at 0 0; renter 1 has the upper four rows.
    pub fn full() -> Book {
        let square = |k: i32| [k % 8, k / 8, k % 8 + 1, k / 8 + 1];
        let squares = slots().zip((0..).map(square));
        squares.fold(Book::empty(), |book, (at, strip)| book.with(at, strip))
    }

    /// The same without the strips of the other renter.
    pub fn full_of(renter: usize) -> Book {
        let others = slots().filter(|at| at[0] != renter);
        others.fold(Book::full(), |book, at| book.without(at))
    }

    pub fn with(&self, at: Slot, strip: Window) -> Book {
        let [left, bottom, right, top] = strip;
        self.put(at, [1, left, bottom, right, top])
    }

    pub fn five(&self, at: Slot) -> [i32; 5] {
        let five = &self.0[start(at)..][..5];
        [five[0], five[1], five[2], five[3], five[4]]
    }

    pub fn without(&self, at: Slot) -> Book {
        self.put(at, FREED)
    }

    /// Five numbers in a slot, whatever they are.
    pub fn put(&self, at: Slot, five: [i32; 5]) -> Book {
        let mut book = self.clone();
        book.0[start(at)..][..5].copy_from_slice(&five);
        book
    }

    /// Cut to a length, or zeros added up to it.
    pub fn cut_to(&self, length: usize) -> Book {
        let mut book = self.clone();
        book.0.resize(length, 0);
        book
    }

    pub fn enter(&self, renter: i32, strip: Window) -> Vec<u8> {
        let lent = Line::of("enter").list(&self.0);
        lent.word(renter).words(&strip).end()
    }

    pub fn release(&self, renter: i32, slot: i32) -> Vec<u8> {
        let lent = Line::of("release").list(&self.0);
        lent.word(renter).word(slot).end()
    }

    pub fn strips(&self, room: usize, renter: i32) -> Vec<u8> {
        let lent = Line::of("strips").word(room).list(&self.0);
        lent.word(renter).end()
    }
}
