//! What a renter may ask of a strip book, now sensibly, now not.

use super::books::Book;
use super::grounds::Ground;
use super::room::room;
use super::windows::{self, Window};
use crate::random::Random;
use crate::strip_book::{listing, HALF};

#[derive(Clone, Copy, Debug)]
pub enum Asked {
    Enter(Window),
    /// A slot.
    Release(i32),
    /// Room for the listing.
    Strips(usize),
}

impl Asked {
    /// Mostly a booking; one in `releases` is a release, more once the half is full.
    pub fn any(
        random: &mut Random,
        book: &Book,
        renter: i32,
        ground: Ground,
        releases: usize,
    ) -> Asked {
        let own = own_strips(book, renter);
        let full = own.len() == HALF;
        if random.one_in(8) {
            Asked::Strips(room(random, 5 * own.len()))
        } else if random.one_in(if full { 3 } else { releases }) {
            Asked::Release(slot(random, &own))
        } else {
            Asked::Enter(strip(random, book, ground, full))
        }
    }

    pub fn line(self, book: &Book, renter: i32) -> Vec<u8> {
        match self {
            Asked::Enter(strip) => book.enter(renter, strip),
            Asked::Release(slot) => book.release(renter, slot),
            Asked::Strips(room) => book.strips(room, renter),
        }
    }
}

/// One of these, or now and then one that there is not.
pub fn any_renter(random: &mut Random, renters: &[i32]) -> i32 {
    if random.one_in(24) {
        random.pick(&[-1, 2, 3, 32, 64, 1 << 27, i32::MIN, i32::MAX])
    } else {
        random.pick(renters)
    }
}

/// The slots in use of a renter; none where there is no such renter or no book.
fn own_strips(book: &Book, renter: i32) -> Vec<i32> {
    let list = listing(&book.0, renter, 5 * HALF).unwrap_or_default();
    list.chunks(5).map(|five| five[0]).collect()
}

/// Mostly a strip that there is place for; in a full half, where the clash must not be told, mostly any.
fn strip(random: &mut Random, book: &Book, ground: Ground, full: bool) -> Window {
    if random.one_in(16) {
        return windows::faulty(random);
    }
    let tries = if full { [0, 0, 0, 30] } else { [0, 30, 30, 30] };
    let tries = random.pick(&tries);
    ground.vacant(random, book, tries)
}

/// Mostly a slot in use.
fn slot(random: &mut Random, own: &[i32]) -> i32 {
    match random.below(8) {
        0 => random.pick(&[-1, 32, 33, 63, 64, -32, i32::MIN, i32::MAX]),
        // The slot of the table, counted from its start and not from the half's.
        1 if !own.is_empty() => random.pick(own) + 32,
        2..=5 if !own.is_empty() => random.pick(own),
        _ => random.between(0, HALF as i32 - 1),
    }
}
