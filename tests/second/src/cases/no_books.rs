//! Numbers that are no strip book, refused by 23 in every call of either renter, and their sound neighbours; with their answers.

use super::book_answers::{entered, listed, no_book, not_released, released};
use super::book_answers::{Answered, ELSEWHERE, STRIP};
use super::books::Book;
use crate::table::MOST;

pub fn answered() -> Vec<Answered> {
    [lengths(), marks(), strips_refused(), strips_shared()].concat()
}

/// 320 numbers and no other count, also where those that are there would be a book's, or the caller's half.
fn lengths() -> Vec<Answered> {
    let book = Book::empty().with([0, 0], STRIP);
    let mut cases = vec![
        entered(&Book::empty(), [0, 0], ELSEWHERE),
        not_released(&Book::empty(), 1, 0, 18),
        entered(&book, [0, 1], ELSEWHERE),
        released(&book, [0, 0]),
        listed(&book, 0, &[[0, 0, 0, 10, 10]], 0),
    ];
    for length in [0, 1, 5, 160, 315, 319, 321, 325, 640] {
        cases.extend(no_book(&book.cut_to(length), 0));
    }
    for length in [160, 315, 319, 321, 640] {
        cases.extend(no_book(&Book::empty().cut_to(length), 1));
    }
    cases
}

/// A mark that is neither 0 nor 1, in any slot of the caller or of the other, over a good strip or over nothing.
fn marks() -> Vec<Answered> {
    let mut cases = Vec::new();
    let book = Book::empty().with([0, 7], STRIP);
    let bare = [([0, 0], 2), ([1, 31], -1), ([0, 31], 256), ([0, 0], 257)];
    for (at, mark) in bare {
        cases.extend(no_book(&book.put(at, [mark, 0, 0, 0, 0]), 0));
    }
    let (least, most) = (i32::MIN, i32::MAX);
    let over = [([0, 0], -1), ([1, 31], 2), ([1, 0], least), ([0, 8], most)];
    for (at, mark) in over {
        cases.extend(no_book(&book.put(at, [mark, 20, 0, 30, 10]), 1));
    }
    let both = Book::full().put([0, 3], [2, 3, 0, 4, 1]);
    cases.extend(no_book(&both.put([1, 28], [-1, 4, 7, 5, 8]), 0));
    cases
}

/// A slot in use of the caller or of the other that is off the table in one of its numbers, or has no area.
fn strips_refused() -> Vec<Answered> {
    let mut cases = Vec::new();
    let (low, high) = (-MOST - 1, MOST + 1);
    let bad = [
        [low, 0, 10, 10],
        [0, low, 10, 10],
        [0, 0, high, 10],
        [0, 0, 10, high],
        [i32::MIN, 0, 10, 10],
        [0, i32::MIN, 10, 10],
        [0, 0, i32::MAX, 10],
        [0, 0, 10, i32::MAX],
        [high, 0, 10, 10],
        [0, 0, 10, low],
        [0, 0, 0, 10],
        [0, 0, 10, 0],
        [0, 0, 0, 0],
        [10, 0, 0, 10],
        [0, 10, 10, 0],
        [10, 10, 0, 0],
    ];
    for (k, strip) in bad.into_iter().enumerate() {
        let at = [[0, 0], [1, 31], [0, 31], [1, 0]][k / 4];
        cases.extend(no_book(&Book::empty().with(at, strip), k as i32 % 2));
    }
    // Only the last slot of a full book.
    let (least, most) = (i32::MIN, i32::MAX);
    for strip in [[7, 7, 7, 8], [7, 7, high, 8], [least, least, most, most]] {
        cases.extend(no_book(&Book::full().with([1, 31], strip), 0));
    }
    cases
}

/// Two slots in use that share area, of one renter or of both, near and far; slots that only touch are a book.
fn strips_shared() -> Vec<Answered> {
    let mut cases = Vec::new();
    let over = [
        STRIP,
        [3, 3, 7, 7],
        [3, -5, 7, 15],
        [9, 9, 20, 20],
        [-10, 0, 1, 10],
        [0, 0, 10, 11],
    ];
    let pairs = [
        ([0, 0], [1, 31]),
        ([0, 31], [1, 0]),
        ([1, 31], [0, 0]),
        ([0, 0], [0, 1]),
        ([1, 30], [1, 31]),
        ([0, 9], [1, 9]),
    ];
    for (k, ((one, other), strip)) in pairs.into_iter().zip(over).enumerate() {
        let book = Book::empty().with(one, STRIP).with(other, strip);
        cases.extend(no_book(&book, k as i32 % 2));
    }
    let touching = [[10, 0, 20, 10], [10, 10, 20, 20], [0, -10, 10, 0]];
    for ((one, other), strip) in pairs.into_iter().zip(touching) {
        let book = Book::empty().with(one, STRIP).with(other, strip);
        cases.push(released(&book, other));
    }
    // In a full book only the first and the last share area, or two in the middle, or two of one renter.
    cases.extend(no_book(&Book::full().with([1, 31], [0, 0, 1, 1]), 0));
    cases.extend(no_book(&Book::full().with([1, 1], [0, 4, 2, 5]), 1));
    cases.extend(no_book(&Book::full().with([0, 31], [7, 3, 8, 5]), 0));
    cases.extend(no_book(&Book::full().with([0, 31], [6, 3, 8, 4]), 1));
    cases
}
