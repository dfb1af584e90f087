//! Listings by hand: a renter's own strips, slot and four numbers each, in slot order, in room of every size.

use super::book_answers::{listed, not_listed, Answered, ELSEWHERE, STRIP};
use super::books::{slots, Book};
use crate::table::MOST;

pub fn answered() -> Vec<Answered> {
    [empty(), full(), gaps(), rooms(), ends_of_the_table()].concat()
}

/// A half without strips needs nothing: it is listed in any room, and never refused by 8.
fn empty() -> Vec<Answered> {
    let mut cases = Vec::new();
    for (renter, other) in [(0, 1), (1, 0)] {
        for spare in [0, 1, 5] {
            cases.push(listed(&Book::empty(), renter, &[], spare));
        }
        cases.push(listed(&Book::full_of(other), renter, &[], 0));
        cases.push(listed(&Book::full_of(other), renter, &[], 4));
        let one = Book::empty().with([other, 0], STRIP);
        cases.push(listed(&one, renter, &[], 0));
    }
    cases
}

/// All 32 strips of a renter, whether the other has some or none.
fn full() -> Vec<Answered> {
    let mut cases = Vec::new();
    for renter in [0, 1] {
        let row = 4 * renter;
        let square = |k: i32| [k % 8, row + k / 8, k % 8 + 1, row + k / 8 + 1];
        let all: Vec<[i32; 5]> = (0..32)
            .map(|slot| {
                let [left, bottom, right, top] = square(slot);
                [slot, left, bottom, right, top]
            })
            .collect();
        for book in [Book::full(), Book::full_of(renter as usize)] {
            cases.push(listed(&book, renter, &all, 0));
            cases.push(listed(&book, renter, &all, 7));
            for room in [159, 155, 0] {
                cases.push(not_listed(&book, renter, room, 8, 160));
            }
        }
        // One less, at either end and in the middle.
        for slot in [0, 17, 31] {
            let book = Book::full().without([renter as usize, slot]);
            let rest = [&all[..slot], &all[slot + 1..]].concat();
            cases.push(listed(&book, renter, &rest, 0));
            cases.push(not_listed(&book, renter, 154, 8, 155));
        }
    }
    cases
}

/// Free slots between, with zeros and with something in them, which is not listed.
fn gaps() -> Vec<Answered> {
    // The strips stand in the order of their slots, wherever they lie.
    let book = Book::empty()
        .with([0, 31], STRIP)
        .with([0, 2], [20, 0, 30, 10])
        .with([0, 9], [-5, -5, 0, 0])
        .with([1, 0], ELSEWHERE)
        .with([1, 30], [10, 0, 20, 10]);
    let of_0 = [[2, 20, 0, 30, 10], [9, -5, -5, 0, 0], [31, 0, 0, 10, 10]];
    let of_1 = [[0, 100, 100, 110, 110], [30, 10, 0, 20, 10]];
    let wild = [0, i32::MIN, i32::MAX, 1, -1];
    let free = slots().filter(|at| book.five(*at)[0] == 0);
    let littered = free.fold(book.clone(), |book, at| {
        book.put(at, [wild, [0, 1, 1, 1, 1], [0, 0, 0, 10, 10]][at[1] % 3])
    });
    let mut cases = Vec::new();
    for book in [&book, &littered] {
        cases.push(listed(book, 0, &of_0, 0));
        cases.push(listed(book, 0, &of_0, 6));
        cases.push(not_listed(book, 0, 14, 8, 15));
        cases.push(listed(book, 1, &of_1, 0));
        cases.push(listed(book, 1, &of_1, 1));
        cases.push(not_listed(book, 1, 9, 8, 10));
    }
    // Nothing but what free slots hold.
    let rubbish = slots().fold(Book::empty(), |book, at| book.put(at, wild));
    cases.extend([0, 1].map(|renter| listed(&rubbish, renter, &[], 0)));
    cases.push(listed(&rubbish, 1, &[], 5));
    cases
}

/// Exact, one short, none, less than a strip needs, more than needed; what is not needed stays as it was.
fn rooms() -> Vec<Answered> {
    let mut cases = Vec::new();
    for (own, other) in [(0, 1), (1, 0)] {
        let book = Book::empty()
            .with([own, 0], STRIP)
            .with([other, 3], ELSEWHERE);
        let renter = own as i32;
        let list = [[0, 0, 0, 10, 10]];
        cases.extend([0, 1, 4, 5, 60].map(|spare| listed(&book, renter, &list, spare)));
        cases.extend([4, 3, 1, 0].map(|room| not_listed(&book, renter, room, 8, 5)));
        let two = book.with([own, 31], [10, 0, 20, 10]);
        cases.extend([9, 6, 5, 0].map(|room| not_listed(&two, renter, room, 8, 10)));
    }
    cases
}

fn ends_of_the_table() -> Vec<Answered> {
    let left = [-MOST, -MOST, 0, MOST];
    let right = [0, -MOST, MOST, MOST];
    let both = Book::empty().with([0, 0], left).with([1, 31], right);
    let own = Book::empty().with([1, 0], right).with([1, 1], left);
    vec![
        listed(&both, 0, &[[0, -MOST, -MOST, 0, MOST]], 0),
        listed(&both, 1, &[[31, 0, -MOST, MOST, MOST]], 0),
        listed(
            &own,
            1,
            &[[0, 0, -MOST, MOST, MOST], [1, -MOST, -MOST, 0, MOST]],
            0,
        ),
        listed(&own, 0, &[], 0),
    ]
}
