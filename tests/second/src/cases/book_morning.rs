//! A morning at the workshop, by hand: each line lends the book that the answer before it gave, from an empty one.

use super::book_answers::{entered, listed, not_entered, not_listed, not_released, released};
use super::book_answers::{Answered, STRIP};
use super::books::{Book, Slot};
use super::windows::Window;

struct Morning {
    book: Book,
    cases: Vec<Answered>,
}

impl Morning {
    fn books(mut self, at: Slot, strip: Window) -> Morning {
        self.cases.push(entered(&self.book, at, strip));
        self.book = self.book.with(at, strip);
        self
    }

    fn releases(mut self, at: Slot) -> Morning {
        self.cases.push(released(&self.book, at));
        self.book = self.book.without(at);
        self
    }

    /// What leaves the book as it is.
    fn then(mut self, case: impl Fn(&Book) -> Answered) -> Morning {
        self.cases.push(case(&self.book));
        self
    }

    fn lists(self, renter: i32, list: &[[i32; 5]]) -> Morning {
        self.then(|book| listed(book, renter, list, 2))
    }

    /// 16, by an own strip or by the other's: the answer is the same.
    fn in_vain(self, renter: i32, strip: Window) -> Morning {
        self.then(|book| not_entered(book, renter, strip, 16, 0))
    }
}

pub fn answered() -> Vec<Answered> {
    let morning = Morning {
        book: Book::empty(),
        cases: Vec::new(),
    };
    let beside = [10, 0, 20, 10];
    let beyond = [20, 0, 30, 10];
    morning
        .lists(0, &[])
        .lists(1, &[])
        .then(|book| not_released(book, 0, 0, 18))
        .books([0, 0], STRIP)
        .lists(1, &[])
        .then(|book| not_released(book, 1, 0, 18))
        // It touches the other's strip, and both have a slot 0 now.
        .books([1, 0], beside)
        .in_vain(0, [5, 5, 15, 15])
        .in_vain(1, [5, 5, 15, 15])
        .in_vain(0, beside)
        .in_vain(1, STRIP)
        .books([0, 1], beyond)
        .lists(0, &[[0, 0, 0, 10, 10], [1, 20, 0, 30, 10]])
        .lists(1, &[[0, 10, 0, 20, 10]])
        .then(|book| not_listed(book, 0, 9, 8, 10))
        // No slot of renter 1, by either way of counting.
        .then(|book| not_released(book, 1, 1, 18))
        .then(|book| not_released(book, 1, -31, 18))
        .then(|book| not_released(book, 0, 32, 18))
        // Under no renter's name nothing changes.
        .then(|book| not_entered(book, 2, [30, 0, 40, 10], 19, 0))
        .then(|book| not_released(book, -1, 0, 19))
        .releases([0, 0])
        .lists(0, &[[1, 20, 0, 30, 10]])
        // What renter 0 left is free for renter 1; slot 0 is free for renter 0.
        .books([1, 1], STRIP)
        .in_vain(0, STRIP)
        .books([0, 0], [0, 10, 10, 20])
        .lists(0, &[[0, 0, 10, 10, 20], [1, 20, 0, 30, 10]])
        .lists(1, &[[0, 10, 0, 20, 10], [1, 0, 0, 10, 10]])
        .releases([1, 0])
        .releases([0, 1])
        .then(|book| not_released(book, 0, 1, 18))
        .books([1, 0], beyond)
        .books([0, 1], beside)
        .lists(1, &[[0, 20, 0, 30, 10], [1, 0, 0, 10, 10]])
        .releases([1, 0])
        .releases([1, 1])
        .lists(1, &[])
        .lists(0, &[[0, 0, 10, 10, 20], [1, 10, 0, 20, 10]])
        .cases
}
