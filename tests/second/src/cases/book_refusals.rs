//! The order of the strip book's refusals, by hand: unknown renters, and several refusals at once.

use super::book_answers::{not_entered, not_listed, not_released};
use super::book_answers::{Answered, ELSEWHERE, STRIP};
use super::books::Book;
use super::windows::Window;
use crate::table::MOST;

pub fn answered() -> Vec<Answered> {
    [
        unknown_renters(),
        unknown_and_more(),
        no_book_and_more(),
        windows_and_more(),
    ]
    .concat()
}

const OFF: Window = [0, 0, MOST + 1, 10];
const FLAT: Window = [8, 8, 2, 2];

/// Two that are no book: a mark of 2 in a half, two strips that share area across the halves.
fn damaged() -> [Book; 2] {
    let marked = Book::empty().with([0, 0], STRIP);
    [
        marked.put([0, 9], [2, 0, 0, 0, 0]),
        Book::full().with([1, 31], [0, 0, 1, 1]),
    ]
}

/// 19 where nothing else is wrong. 32 times the last two, and 160 times, is that of 0 and 1 where only 32 bits are kept.
fn unknown_renters() -> Vec<Answered> {
    let book = Book::empty().with([0, 0], STRIP).with([1, 0], ELSEWHERE);
    let unknown = [
        -1,
        2,
        3,
        32,
        63,
        255,
        256,
        65_536,
        i32::MIN,
        i32::MAX,
        1 << 27,
        (1 << 27) + 1,
    ];
    let mut cases = Vec::new();
    for renter in unknown {
        cases.push(not_entered(&book, renter, [20, 0, 30, 10], 19, 0));
        cases.push(not_released(&book, renter, 0, 19));
        cases.push(not_listed(&book, renter, 10, 19, 0));
    }
    for renter in [-1, 2] {
        cases.push(not_entered(&Book::empty(), renter, STRIP, 19, 0));
        cases.push(not_released(&Book::full(), renter, 31, 19));
        // Nothing would be needed of the room.
        cases.push(not_listed(&Book::empty(), renter, 0, 19, 0));
    }
    cases
}

/// 19 comes before 23, 2, 3, 17, 16, 18 and 8, one by one and together.
fn unknown_and_more() -> Vec<Answered> {
    let book = Book::empty().with([0, 0], STRIP);
    let full = Book::full();
    let mut cases = Vec::new();
    for (k, no_book) in no_books().into_iter().enumerate() {
        let renter = [-1, 2, i32::MIN, i32::MAX][k % 4];
        cases.push(not_entered(&no_book, renter, ELSEWHERE, 19, 0));
        cases.push(not_entered(&no_book, renter, OFF, 19, 0));
        cases.push(not_released(&no_book, renter, 32, 19));
        cases.push(not_listed(&no_book, renter, 3, 19, 0));
    }
    for renter in [-1, 2] {
        for strip in [OFF, FLAT, STRIP] {
            cases.push(not_entered(&book, renter, strip, 19, 0));
        }
        for strip in [OFF, FLAT, ELSEWHERE, [0, 0, 1, 1]] {
            cases.push(not_entered(&full, renter, strip, 19, 0));
        }
        cases.extend([-1, 5, 32].map(|slot| not_released(&book, renter, slot, 19)));
        cases.extend([0, 4].map(|room| not_listed(&book, renter, room, 19, 0)));
        cases.push(not_listed(&full, renter, 159, 19, 0));
    }
    cases
}

/// 23 comes before 2, 3, 17, 16, 18 and 8, whoever calls.
fn no_book_and_more() -> Vec<Answered> {
    let mut cases = Vec::new();
    for (no_book, one) in no_books().into_iter().zip([0, 1, 0, 1, 0]) {
        let other = 1 - one;
        cases.extend([
            not_entered(&no_book, one, OFF, 23, 0),
            not_entered(&no_book, other, FLAT, 23, 0),
            not_entered(&no_book, one, STRIP, 23, 0),
            not_entered(&no_book, other, [8, 0, 9, 8], 23, 0),
            not_released(&no_book, one, -1, 23),
            not_released(&no_book, other, 5, 23),
            not_released(&no_book, one, 32, 23),
            not_listed(&no_book, other, 4, 23, 0),
        ]);
    }
    cases
}

fn no_books() -> Vec<Book> {
    let lengths = [0, 319, 325].map(|length| Book::full().cut_to(length));
    [&damaged()[..], &lengths].concat()
}

/// 2 comes before 3, and both before 17 and 16, in a half that is full, beside one that is, and over a strip of either renter.
fn windows_and_more() -> Vec<Answered> {
    let book = Book::empty()
        .with([0, 0], STRIP)
        .with([1, 0], [20, 0, 30, 10]);
    let (full, of_0) = (Book::full(), Book::full_of(0));
    let low = [0, -MOST - 1, 1, 1];
    let mut cases = Vec::new();
    for renter in [0, 1] {
        // Off the table and without area, by the same number or by two others.
        let both = [MOST + 1, 0, 10, 10];
        cases.push(not_entered(&Book::empty(), renter, both, 2, 0));
        let both = [10, 0, 0, MOST + 1];
        cases.push(not_entered(&Book::empty(), renter, both, 2, 3));
        cases.push(not_entered(&full, renter, both, 2, 3));
        cases.push(not_entered(&book, renter, OFF, 2, 2));
        cases.push(not_entered(&full, renter, OFF, 2, 2));
        cases.push(not_entered(&full, renter, low, 2, 1));
        cases.push(not_entered(&of_0, renter, low, 2, 1));
        // Without area, over an own strip, over the other's, and far from both.
        cases.push(not_entered(&book, renter, FLAT, 3, 0));
        cases.push(not_entered(&book, renter, [25, 0, 25, 10], 3, 0));
        cases.push(not_entered(&full, renter, FLAT, 3, 0));
        cases.push(not_entered(&full, renter, [100, 100, 100, 110], 3, 0));
        cases.push(not_entered(&of_0, renter, FLAT, 3, 0));
    }
    // 17 before 16, and 16 alone for the renter who has room.
    cases.push(not_entered(&full, 0, [0, 0, 8, 8], 17, 0));
    cases.push(not_entered(&full, 1, [0, 0, 8, 8], 17, 0));
    cases.push(not_entered(&of_0, 0, [0, 0, 8, 8], 17, 0));
    cases.push(not_entered(&of_0, 1, [0, 0, 8, 8], 16, 0));
    cases
}
