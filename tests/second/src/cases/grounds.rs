//! Where the strips of a book lie: on a coarse board, so that they touch, share area and fill the book, or anywhere.

use super::books::Book;
use super::windows::{self, Window};
use crate::random::Random;
use crate::strip_book::{share_area, strips};

#[derive(Clone, Copy)]
pub enum Ground {
    /// Squares in rows and columns; a strip spans up to `most` of them each way.
    Board {
        squares: i32,
        size: i32,
        most: i32,
    },
    Anywhere,
}

impl Ground {
    /// More than 64 places of equal size.
    pub fn roomy(random: &mut Random) -> Ground {
        let size = random.pick(&[1, 1, 25, 3_640]);
        Ground::Board {
            squares: 9,
            size,
            most: 1,
        }
    }

    /// Few places, strips of all sizes.
    pub fn crowded(random: &mut Random) -> Ground {
        let size = random.pick(&[1, 1, 40, 4_000]);
        Ground::Board {
            squares: 8,
            size,
            most: 3,
        }
    }

    pub fn any(random: &mut Random) -> Ground {
        match random.below(3) {
            0 => Ground::roomy(random),
            1 => Ground::crowded(random),
            _ => Ground::Anywhere,
        }
    }

    /// A strip that shares no area with one of the book, if so many further tries find one.
    pub fn vacant(self, random: &mut Random, book: &Book, tries: usize) -> Window {
        let shared = |strip: Window| strips(&book.0).any(|other| share_area(strip, other));
        let mut strip = self.strip(random);
        for _ in 0..tries {
            if shared(strip) {
                strip = self.strip(random);
            }
        }
        strip
    }

    pub fn strip(self, random: &mut Random) -> Window {
        let Ground::Board {
            squares,
            size,
            most,
        } = self
        else {
            return windows::window(random);
        };
        // The board lies round the middle of the table.
        let mut side = || {
            let span = random.between(1, most);
            let first = random.between(0, squares - span);
            [first, first + span].map(|line| line * size - squares * size / 2)
        };
        let ([left, right], [bottom, top]) = (side(), side());
        [left, bottom, right, top]
    }
}
