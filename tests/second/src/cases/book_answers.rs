//! A line of the strip book with its answer, put together from what is known by hand: how the call ends, and in which slot.
//! A refused call gives the book back as it was.

use super::books::{Book, Slot};
pub use super::line::Answered;
use super::windows::Window;

/// What most of these are about, and one that lies far from it.
pub const STRIP: Window = [0, 0, 10, 10];
pub const ELSEWHERE: Window = [100, 100, 110, 110];

pub fn entered(book: &Book, at: Slot, strip: Window) -> Answered {
    let [renter, slot] = at;
    let head = format!("0 0 {slot}");
    let line = book.enter(renter as i32, strip);
    (line, answer(head, &book.with(at, strip).0))
}

pub fn not_entered(book: &Book, renter: i32, strip: Window, number: u8, place: usize) -> Answered {
    let head = format!("{number} {place} 0");
    (book.enter(renter, strip), answer(head, &book.0))
}

pub fn released(book: &Book, at: Slot) -> Answered {
    let [renter, slot] = at.map(|n| n as i32);
    let after = book.without(at);
    (
        book.release(renter, slot),
        answer("0 0".to_string(), &after.0),
    )
}

pub fn not_released(book: &Book, renter: i32, slot: i32, number: u8) -> Answered {
    let head = format!("{number} 0");
    (book.release(renter, slot), answer(head, &book.0))
}

/// A listing with as much room as it needs and `spare` numbers more.
pub fn listed(book: &Book, renter: i32, list: &[[i32; 5]], spare: usize) -> Answered {
    let needed = 5 * list.len();
    let room = needed + spare;
    let numbers = [list.concat(), left_alone(needed..room)].concat();
    let head = format!("0 0 {needed}");
    (book.strips(room, renter), answer(head, &numbers))
}

pub fn not_listed(book: &Book, renter: i32, room: usize, number: u8, place: usize) -> Answered {
    let head = format!("{number} {place} 0");
    (
        book.strips(room, renter),
        answer(head, &left_alone(0..room)),
    )
}

/// What the desk puts in the output before the call.
fn left_alone(places: std::ops::Range<usize>) -> Vec<i32> {
    places.map(|place| 7_000_000 + place as i32).collect()
}

fn answer(head: String, numbers: &[i32]) -> String {
    numbers.iter().fold(head, |text, n| format!("{text} {n}"))
}

/// Refused by 23 in every call, whoever calls and whatever else is asked for: the release is the other renter's.
pub fn no_book(book: &Book, renter: i32) -> [Answered; 3] {
    [
        not_entered(book, renter, ELSEWHERE, 23, 0),
        not_released(book, 1 - renter, 0, 23),
        not_listed(book, renter, 0, 23, 0),
    ]
}
