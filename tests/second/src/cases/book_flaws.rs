//! Books that are none any more, or hold something in a free slot.

use super::books::{slots, Book, Slot};
use super::numbers::{anywhere, spoil};
use crate::random::Random;
use crate::strip_book::{FREED, HALF, RENTERS};

pub fn flawed(random: &mut Random, book: &Book) -> Book {
    let at = any_slot(random);
    let mut five = book.five(at);
    match random.below(8) {
        0 => {
            let length = book.0.len() + random.below(11);
            return book.cut_to(length - 5);
        }
        1 => five[0] = random.pick(&[2, -1, 3, 255, 256, i32::MIN, i32::MAX]),
        2 => spoil(random, &mut five[1..]),
        3 => five.swap(1, 3),
        4 => five[4] = five[2],
        // What another slot holds, so that it is there twice.
        5 => five = book.five(any_slot(random)),
        6 => five[1 + random.below(4)] ^= 1 << random.below(4),
        _ => five[0] = 1 - five[0],
    }
    book.put(at, five)
}

fn any_slot(random: &mut Random) -> Slot {
    [random.below(RENTERS), random.below(HALF)]
}

/// Numbers in every other free slot or so.
pub fn littered(random: &mut Random, book: &Book) -> Book {
    slots().fold(book.clone(), |book, at| {
        if book.five(at) == FREED && random.one_in(2) {
            let [a, b, c, d] = [(); 4].map(|_| anywhere(random));
            book.put(at, [0, a, b, c, d])
        } else {
            book
        }
    })
}
