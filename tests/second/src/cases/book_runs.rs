//! Runs of a strip book from an empty one, and lines with a book of their own.

use super::book_asked::{any_renter, Asked};
use super::book_flaws::{flawed, littered};
use super::books::{slots, Book};
use super::grounds::Ground;
use crate::random::Random;
use crate::refusal::Refusal;
use crate::strip_book::{enter, release};

/// A run: each line lends the book that the answer before it gave.
struct Run {
    book: Book,
    ground: Ground,
    /// One line in this many is a release, more once the half is full.
    releases: usize,
    /// Who calls, each as likely as it stands here.
    renters: &'static [i32],
    /// One line in this many lends a damaged copy; the run goes on from the answer before. 0 for none.
    damaged: usize,
}

/// What the workshop sees, then the same with damaged books between, as often as it takes.
pub fn lines(random: &mut Random, count: usize) -> Vec<Vec<u8>> {
    let mut lines = Vec::new();
    while lines.len() < count {
        lines.extend(workshop(random));
        for ground in [Ground::crowded(random), Ground::Anywhere] {
            lines.extend(Run::on(ground, 3).damaged(6).lines(random, 20));
        }
    }
    lines.truncate(count);
    lines
}

/// Long enough to fill both halves, then to fill one while the other has room, then on little ground and anywhere on the table.
pub fn workshop(random: &mut Random) -> Vec<Vec<u8>> {
    let [roomy, again] = [(); 2].map(|_| Ground::roomy(random));
    let often: &[i32] = random.pick(&[&[0, 0, 0, 0, 0, 1], &[1, 1, 1, 1, 1, 0]]);
    let crowded = Ground::crowded(random);
    [
        Run::on(roomy, 30).lines(random, 140),
        Run::on(again, 30).renters(often).lines(random, 80),
        Run::on(crowded, 3).lines(random, 30),
        Run::on(Ground::Anywhere, 3).lines(random, 20),
    ]
    .concat()
}

/// One call with a book that need not have come from a run.
pub fn line(random: &mut Random) -> Vec<u8> {
    let ground = Ground::any(random);
    let mut book = half_full(random, ground);
    if random.one_in(2) {
        book = littered(random, &book);
    }
    if random.one_in(4) {
        book = flawed(random, &book);
    }
    let renter = any_renter(random, &[0, 1]);
    Asked::any(random, &book, renter, ground, 3).line(&book, renter)
}

/// Each half empty, full as far as there is place, or something between.
pub fn half_full(random: &mut Random, ground: Ground) -> Book {
    let tenths = [(); 2].map(|_| random.pick(&[0, 1, 5, 9, 10, 10]));
    slots().fold(Book::empty(), |book, at| {
        if random.below(10) >= tenths[at[0]] {
            return book;
        }
        let strip = ground.vacant(random, &book, 30);
        if enter(&book.0, at[0] as i32, strip).is_ok() {
            book.with(at, strip)
        } else {
            book
        }
    })
}

impl Run {
    fn on(ground: Ground, releases: usize) -> Run {
        Run {
            book: Book::empty(),
            ground,
            releases,
            renters: &[0, 1],
            damaged: 0,
        }
    }

    fn renters(self, renters: &'static [i32]) -> Run {
        Run { renters, ..self }
    }

    fn damaged(self, damaged: usize) -> Run {
        Run { damaged, ..self }
    }

    fn lines(mut self, random: &mut Random, count: usize) -> Vec<Vec<u8>> {
        (0..count).map(|_| self.line(random)).collect()
    }

    fn line(&mut self, random: &mut Random) -> Vec<u8> {
        let renter = any_renter(random, self.renters);
        let asked = Asked::any(random, &self.book, renter, self.ground, self.releases);
        if self.damaged > 0 && random.one_in(self.damaged) {
            return asked.line(&flawed(random, &self.book), renter);
        }
        let line = asked.line(&self.book, renter);
        self.go_on(asked, renter);
        line
    }

    /// A refused call and a listing leave the book as it was.
    fn go_on(&mut self, asked: Asked, renter: i32) {
        let book = &self.book.0;
        let after: Result<Vec<i32>, Refusal> = match asked {
            Asked::Enter(strip) => enter(book, renter, strip).map(|(_, after)| after),
            Asked::Release(slot) => release(book, renter, slot),
            Asked::Strips(_) => return,
        };
        if let Ok(after) = after {
            self.book = Book(after);
        }
    }
}
