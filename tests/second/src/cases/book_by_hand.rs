//! Lines of the strip book with their answers, worked out by hand, for every sentence of its rule.
//! Both programs are run on them, and the tests hold this one to them.
//! Here stands which strips share area, of whichever renter; the other subjects have files of their own.

use super::book_answers::{entered, not_entered, released};
use super::book_answers::{Answered, ELSEWHERE, STRIP};
use super::books::{Book, Slot};
use super::windows::Window;
use super::{book_halves, book_listings, book_morning, book_refusals, no_books};
use crate::table::MOST;

pub fn lines() -> Vec<Vec<u8>> {
    answered().into_iter().map(|(line, _)| line).collect()
}

pub fn answered() -> Vec<Answered> {
    [
        book_morning::answered(),
        touching(),
        sharing(),
        ends_of_the_table(),
        windows(),
        book_halves::answered(),
        book_listings::answered(),
        book_refusals::answered(),
        no_books::answered(),
    ]
    .concat()
}

/// Side by side, a part of a side, corner to corner: none of it shares area, beside an own strip and beside the other's.
fn touching() -> Vec<Answered> {
    let beside = [
        [10, 0, 20, 10],
        [-10, 0, 0, 10],
        [0, 10, 10, 20],
        [0, -10, 10, 0],
        [10, -5, 20, 15],
        [-10, 3, 0, 4],
        [3, 10, 4, 11],
        [-5, -10, 15, 0],
        [10, 10, 20, 20],
        [-10, -10, 0, 0],
        [10, -10, 20, 0],
        [-10, 10, 0, 20],
    ];
    let (of_0, of_1) = (one([0, 0]), one([1, 0]));
    let mut cases = Vec::new();
    for (k, strip) in beside.into_iter().enumerate() {
        // In turn: an own strip and the other's, of renter 0 and of renter 1.
        cases.push(match k % 2 {
            0 => entered(&of_0, [0, 1], strip),
            _ => entered(&of_1, [1, 1], strip),
        });
        cases.push(match k % 4 {
            0 | 1 => entered(&of_0, [1, 0], strip),
            _ => entered(&of_1, [0, 0], strip),
        });
    }
    // A strip on each side and at each corner, in turn of either renter; the place in the middle is exactly as large as the
    // strip that was there.
    let all = [&beside[..4], &beside[8..]].concat();
    let slots = (0..).map(|k| [k % 2, 1 + k / 2]);
    let strips = all.into_iter().zip(slots);
    let all_round = strips.fold(of_0.clone(), |book, (strip, at)| book.with(at, strip));
    cases.push(entered(&all_round, [0, 5], ELSEWHERE));
    cases.push(entered(&all_round, [1, 0], ELSEWHERE));
    cases.push(released(&all_round, [0, 0]));
    cases.push(entered(&all_round.without([0, 0]), [0, 0], STRIP));
    cases.push(entered(&all_round.without([0, 0]), [1, 0], STRIP));
    // Apart by one grid step.
    cases.push(entered(&of_0, [0, 1], [11, 0, 20, 10]));
    cases.push(entered(&of_0, [1, 0], [0, -11, 10, -1]));
    cases
}

/// Equal, one inside the other, crosses, and overlaps of one grid step, with the entered strip in any slot of either renter.
fn sharing() -> Vec<Answered> {
    let over = [
        STRIP,
        [3, 3, 7, 7],
        [0, 0, 5, 10],
        [0, 5, 10, 10],
        [0, 0, 1, 1],
        [9, 9, 10, 10],
        [-5, -5, 15, 15],
        [0, 0, 10, 11],
        [-1, 0, 10, 10],
        [3, -5, 7, 15],
        [-5, 3, 15, 7],
        [0, -5, 10, 15],
        [9, 0, 20, 10],
        [-10, 0, 1, 10],
        [0, 9, 10, 20],
        [0, -10, 10, 1],
        [9, 9, 20, 20],
        [-10, -10, 1, 1],
        [9, -10, 20, 1],
        [-10, 9, 1, 20],
    ];
    let slots = [[0, 0], [1, 0], [0, 31], [1, 31], [0, 1], [1, 30]];
    let mut cases = Vec::new();
    for (k, strip) in over.into_iter().enumerate() {
        let book = one(slots[k % slots.len()]);
        cases.extend([0, 1].map(|renter| not_entered(&book, renter, strip, 16, 0)));
    }
    // Of many strips only one is shared, an own or the other's, and then several.
    let many = Book::full().without([0, 20]).without([1, 20]);
    let shared = [
        [-5, -5, 1, 1],
        [7, 7, 9, 9],
        [4, 2, 5, 4],
        [4, 6, 5, 8],
        [0, 0, 8, 8],
    ];
    for strip in shared {
        cases.extend([0, 1].map(|renter| not_entered(&many, renter, strip, 16, 0)));
    }
    // What either left is free for both.
    for strip in [[4, 2, 5, 3], [4, 6, 5, 7]] {
        cases.extend([0, 1].map(|renter| entered(&many, [renter, 20], strip)));
    }
    cases
}

/// The whole table as one strip, its left and its right, and the least strips in its corners.
fn ends_of_the_table() -> Vec<Answered> {
    let whole = [-MOST, -MOST, MOST, MOST];
    let (left, right) = ([-MOST, -MOST, 0, MOST], [0, -MOST, MOST, MOST]);
    let lowest = [-MOST, -MOST, 1 - MOST, 1 - MOST];
    let highest = [MOST - 1, MOST - 1, MOST, MOST];
    let with = |strip: Window| Book::empty().with([0, 0], strip);
    let both = with(left).with([1, 0], right);
    vec![
        entered(&Book::empty(), [0, 0], whole),
        entered(&Book::empty(), [1, 0], whole),
        not_entered(&with(whole), 0, whole, 16, 0),
        not_entered(&with(whole), 1, whole, 16, 0),
        not_entered(&with(whole), 0, lowest, 16, 0),
        not_entered(&with(whole), 1, highest, 16, 0),
        not_entered(&with(lowest), 1, whole, 16, 0),
        not_entered(&with(highest), 0, whole, 16, 0),
        released(&with(whole), [0, 0]),
        entered(&with(left), [0, 1], right),
        entered(&with(left), [1, 0], right),
        entered(&with(right), [1, 0], left),
        not_entered(&with(left), 1, [-1, -MOST, MOST, MOST], 16, 0),
        not_entered(&both, 0, highest, 16, 0),
        not_entered(&both, 1, lowest, 16, 0),
        released(&both, [1, 0]),
        entered(&with(lowest), [1, 0], highest),
        entered(&with(highest), [0, 1], lowest),
    ]
}

/// 2 with the index of the first number off the table, and 3, on an empty book and on one in use.
fn windows() -> Vec<Answered> {
    let mut cases = Vec::new();
    let book = Book::empty().with([0, 0], ELSEWHERE);
    for place in 0..4 {
        for (k, off) in [MOST + 1, -MOST - 1, i32::MAX, i32::MIN]
            .into_iter()
            .enumerate()
        {
            let mut strip = STRIP;
            strip[place] = off;
            let renter = (place + k) as i32 % 2;
            cases.push(not_entered(&book, renter, strip, 2, place));
        }
    }
    let empty = Book::empty();
    cases.push(not_entered(&empty, 0, [i32::MIN, 0, i32::MAX, 10], 2, 0));
    cases.push(not_entered(&empty, 1, [0, 0, MOST + 1, MOST + 1], 2, 2));
    let flat = [
        [0, 0, 0, 10],
        [0, 0, 10, 0],
        [0, 0, 0, 0],
        [10, 0, 0, 10],
        [0, 10, 10, 0],
        [10, 10, 0, 0],
        [MOST, MOST, -MOST, -MOST],
    ];
    let renters = [0, 1].into_iter().cycle();
    let flat = flat.into_iter().zip(renters);
    cases.extend(flat.map(|(strip, renter)| not_entered(&empty, renter, strip, 3, 0)));
    cases
}

fn one(at: Slot) -> Book {
    Book::empty().with(at, STRIP)
}
