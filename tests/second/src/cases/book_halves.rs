//! The two halves of a strip book by hand: which slot a booking takes, full halves, free slots, releases.

use super::book_answers::{entered, not_entered, not_released, released};
use super::book_answers::{Answered, ELSEWHERE, STRIP};
use super::books::{slots, Book, Slot};
use crate::table::MOST;

pub fn answered() -> Vec<Answered> {
    [
        lowest_free(),
        full(),
        one_full(),
        last_free(),
        free_slots(),
        releases(),
        releases_refused(),
        ones_in_a_free_slot(),
    ]
    .concat()
}

/// Booking takes the lowest free slot of the own half, wherever the strips of either renter are that were entered before.
fn lowest_free() -> Vec<Answered> {
    let one = |at: Slot| Book::empty().with(at, STRIP);
    let two = |slot: Slot, other: Slot| one(slot).with(other, [20, 0, 30, 10]);
    let mut cases = Vec::new();
    for (own, other) in [(0, 1), (1, 0)] {
        cases.extend([
            entered(&one([own, 0]), [own, 1], ELSEWHERE),
            entered(&one([own, 1]), [own, 0], ELSEWHERE),
            entered(&one([own, 31]), [own, 0], ELSEWHERE),
            entered(&one([other, 0]), [own, 0], ELSEWHERE),
            entered(&one([other, 31]), [own, 0], ELSEWHERE),
            entered(&two([own, 0], [own, 1]), [own, 2], ELSEWHERE),
            entered(&two([own, 0], [own, 2]), [own, 1], ELSEWHERE),
            entered(&two([own, 0], [other, 1]), [own, 1], ELSEWHERE),
            entered(&two([own, 1], [other, 0]), [own, 0], ELSEWHERE),
        ]);
        for slot in [0, 1, 30, 31] {
            let book = Book::full().without([own, slot]);
            cases.push(entered(&book, [own, slot], ELSEWHERE));
        }
    }
    let of_0 = Book::full().without([0, 5]).without([0, 20]);
    let holes = of_0.without([1, 3]).without([1, 31]);
    cases.push(entered(&holes, [0, 5], ELSEWHERE));
    cases.push(entered(&holes, [1, 3], ELSEWHERE));
    // A freed slot is used again, by the strip that was there too.
    cases.push(entered(&Book::full().without([0, 9]), [0, 9], [1, 1, 2, 2]));
    cases.push(entered(&Book::full().without([1, 9]), [1, 9], [1, 5, 2, 6]));
    cases
}

/// Both halves full: 17 for either renter, also for a strip that shares area with an own one, with the other's, or with all.
fn full() -> Vec<Answered> {
    let book = Book::full();
    let whole = [-MOST, -MOST, MOST, MOST];
    let asked = [
        ELSEWHERE,
        [8, 0, 9, 8],
        [8, 8, 9, 9],
        [0, 0, 1, 1],
        [7, 7, 8, 8],
        [7, 7, 20, 20],
        [3, 3, 4, 5],
        whole,
    ];
    let of = |renter: i32| asked.map(|strip| not_entered(&book, renter, strip, 17, 0));
    [of(0), of(1)].concat()
}

/// The own half is full and the other has room: 17, with a clash in either half too. The other way round it is no 17.
fn one_full() -> Vec<Answered> {
    let mut cases = Vec::new();
    for (own, other) in [(0, 1), (1, 0)] {
        let book = Book::full_of(own);
        let (own_row, other_row) = ([0, 4][own], [0, 4][other]);
        let taken = [2, own_row, 3, own_row + 1];
        let vacant = [2, other_row, 3, other_row + 1];
        // The own half is full, the other empty.
        for strip in [ELSEWHERE, taken, vacant, [0, 0, 8, 8]] {
            cases.push(not_entered(&book, own as i32, strip, 17, 0));
        }
        // It stays 17 where the other has booked.
        let two = book.with([other, 7], ELSEWHERE).with([other, 31], vacant);
        for strip in [ELSEWHERE, vacant, [105, 105, 115, 115], [8, 0, 9, 1]] {
            cases.push(not_entered(&two, own as i32, strip, 17, 0));
        }
        // The other's half is full, the own empty or nearly so.
        cases.extend([
            entered(&book, [other, 0], ELSEWHERE),
            entered(&book, [other, 0], vacant),
            entered(&book, [other, 0], [0, other_row, 8, other_row + 4]),
            not_entered(&book, other as i32, taken, 16, 0),
            not_entered(&book, other as i32, [0, 3, 1, 5], 16, 0),
            not_entered(&two, other as i32, [105, 105, 115, 115], 16, 0),
            entered(&two, [other, 0], [110, 100, 120, 110]),
        ]);
    }
    cases
}

/// The last free slot of a half: 16 while it is free, 17 once it is taken, and never 17 for the other's sake.
fn last_free() -> Vec<Answered> {
    let mut cases = Vec::new();
    for (own, other) in [(0, 1), (1, 0)] {
        let book = Book::full().without([own, 31]);
        let (mine, others) = ([0, 4 * own as i32], [0, 4 * other]);
        for [left, bottom] in [mine, others] {
            let strip = [left, bottom, left + 1, bottom + 1];
            cases.push(not_entered(&book, own as i32, strip, 16, 0));
            cases.push(not_entered(&book, other, strip, 17, 0));
        }
        cases.push(entered(&book, [own, 31], ELSEWHERE));
        cases.push(not_entered(&book, other, ELSEWHERE, 17, 0));
        let taken = book.with([own, 31], ELSEWHERE);
        cases.push(not_entered(&taken, own as i32, ELSEWHERE, 17, 0));
    }
    cases
}

const WILD: [i32; 5] = [0, i32::MIN, i32::MAX, 1, -1];
const FLAT: [i32; 5] = [0, 5, 5, 5, 5];
const LEFT_OVER: [i32; 5] = [0, 0, 0, 10, 10];

/// What a free slot holds is no 23 and no 16, stays, and is overwritten when the slot is booked.
fn free_slots() -> Vec<Answered> {
    let mut cases = Vec::new();
    for five in [WILD, FLAT, LEFT_OVER, [0, 1, 1, 1, 1], [0, 0, 0, 0, 1]] {
        let (own, other) = (Book::empty().put([0, 0], five), [1, 0]);
        cases.push(entered(&own, [0, 0], STRIP));
        cases.push(not_released(&own, 0, 0, 18));
        cases.push(entered(&own, other, STRIP));
        cases.push(entered(&Book::empty().put([0, 1], five), [0, 0], STRIP));
        let of_1 = Book::empty().put(other, five);
        cases.push(entered(&of_1, other, STRIP));
        cases.push(not_released(&of_1, 1, 0, 18));
    }
    // Every free slot holds something; one strip of each renter is in use among them.
    let all = (0..).zip(slots()).fold(Book::empty(), |book, (k, at)| {
        book.put(at, [WILD, LEFT_OVER, FLAT][k % 3])
    });
    let two = all.with([0, 7], STRIP).with([1, 9], [20, 0, 30, 10]);
    cases.push(entered(&all, [0, 0], STRIP));
    cases.push(entered(&all, [1, 0], STRIP));
    for renter in [0, 1] {
        cases.push(entered(&two, [renter, 0], ELSEWHERE));
        let renter = renter as i32;
        cases.push(not_entered(&two, renter, [9, 9, 11, 11], 16, 0));
        cases.push(not_entered(&two, renter, [29, 9, 31, 11], 16, 0));
        cases.push(not_entered(&two, renter, [9, 9, 9, 11], 3, 0));
        cases.push(not_entered(&two, renter, [9, 9, 11, MOST + 1], 2, 3));
        cases.push(not_released(&two, renter, 6, 18));
    }
    cases.extend([released(&two, [0, 7]), released(&two, [1, 9])]);
    cases.extend([not_released(&two, 0, 9, 18), not_released(&two, 1, 7, 18)]);
    // Free slots that would share area, and the last free slots of all.
    let last = Book::full()
        .put([0, 30], LEFT_OVER)
        .put([0, 31], LEFT_OVER)
        .put([1, 31], LEFT_OVER);
    cases.push(entered(&last, [0, 30], ELSEWHERE));
    cases.push(entered(&last, [1, 31], [6, 3, 8, 4]));
    let nearly = last.with([0, 30], ELSEWHERE);
    cases.push(entered(&nearly, [0, 31], [-2, 0, 0, 1]));
    cases
}

/// A slot in use of the own half gets five zeros; all others stay, those of the other renter too.
fn releases() -> Vec<Answered> {
    let full = Book::full();
    let mut cases = Vec::new();
    for renter in [0, 1] {
        cases.extend([0, 1, 30, 31].map(|slot| released(&full, [renter, slot])));
        cases.push(released(&Book::full_of(renter), [renter, 12]));
        cases.push(released(
            &Book::empty().with([renter, 31], STRIP),
            [renter, 31],
        ));
    }
    cases
}

/// 18 for a slot that is free, that only the other renter uses, or that is none of the 32.
fn releases_refused() -> Vec<Answered> {
    let full = Book::full();
    let mut cases = Vec::new();
    let none = [-1, 32, 33, 63, 64, 65, 127, 256, 320, i32::MAX, i32::MIN];
    for renter in [0, 1] {
        cases.extend(none.map(|slot| not_released(&full, renter, slot, 18)));
    }
    // Slots of the other renter, counted from the own half.
    cases.extend([40, 62].map(|slot| not_released(&full, 0, slot, 18)));
    cases.extend([-32, -20].map(|slot| not_released(&full, 1, slot, 18)));
    // Five times these slots is 4 where only 32 bits are kept, counted from the table's start, and there stands a 1.
    cases.push(not_released(&full, 0, 858_993_460, 18));
    cases.push(not_released(&full, 1, 858_993_460, 18));
    cases.push(not_released(&full, 1, 858_993_428, 18));
    for (own, other) in [(0, 1), (1, 0)] {
        let book = Book::empty().with([other, 5], STRIP);
        let renter = own as i32;
        let across = [5, 37, -27, 0, 31];
        cases.extend(across.map(|slot| not_released(&book, renter, slot, 18)));
        let others = Book::full_of(other);
        cases.extend([0, 31, 32].map(|slot| not_released(&others, renter, slot, 18)));
        for slot in [0, 15, 31] {
            let book = full.without([own, slot]);
            cases.push(not_released(&book, renter, slot as i32, 18));
        }
        let last = Book::empty().with([own, 31], STRIP);
        let beside = [0, 30, -1, 32, 63];
        cases.extend(beside.map(|slot| not_released(&last, renter, slot, 18)));
    }
    cases
}

/// The mark alone says whether a slot is in use: here slot 1 holds ones behind it.
fn ones_in_a_free_slot() -> Vec<Answered> {
    let mut cases = Vec::new();
    for own in [0, 1] {
        let ones = Book::empty()
            .with([own, 0], [-1, -1, 1, 1])
            .with([own, 2], [1, 1, 2, 2])
            .put([own, 1], [0, 1, 1, 1, 1]);
        cases.extend([released(&ones, [own, 0]), released(&ones, [own, 2])]);
        cases.extend([1, 3].map(|slot| not_released(&ones, own as i32, slot, 18)));
    }
    cases
}
