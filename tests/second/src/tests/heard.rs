//! A call on a strip book that goes on by itself, and what the renter hears of it.

use crate::call::Call;
use crate::cases::book_asked::Asked;
use crate::refusal::Refusal;
use crate::strip_book::{enter, listing, release};

/// The slot of a booking, nothing for a release, the numbers of a listing.
pub type Heard = Result<Vec<i32>, Refusal>;

pub fn of_book(book: &mut Vec<i32>, renter: i32, asked: Asked) -> Heard {
    let (heard, after) = match asked {
        Asked::Enter(strip) => {
            let (slot, after) = enter(book, renter, strip)?;
            (vec![slot as i32], after)
        }
        Asked::Release(slot) => (vec![], release(book, renter, slot)?),
        Asked::Strips(room) => return listing(book, renter, room),
    };
    *book = after;
    Ok(heard)
}

/// The book that a line lends, the renter and what it asks for; none for the lines of other calls.
pub fn asked(call: Call) -> Option<(Vec<i32>, i32, Asked)> {
    match call {
        Call::Enter(book, renter, strip) => Some((book, renter, Asked::Enter(strip))),
        Call::Release(book, renter, slot) => Some((book, renter, Asked::Release(slot))),
        Call::Strips(room, book, renter) => Some((book, renter, Asked::Strips(room))),
        _ => None,
    }
}

/// The refusal's number, 0 where the call was done.
pub fn number(heard: &Heard) -> u8 {
    heard.as_ref().map_or_else(|refusal| refusal.number, |_| 0)
}
