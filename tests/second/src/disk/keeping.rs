//! A book that is kept: each line is answered, and a change is in the file before its answer.

use super::decimal::grid;
use super::entry::{entries, sides, Entry};
use super::order::{self, Line, Order};
use super::text;
use crate::fraction::Fraction;
use crate::lines::lines;
use crate::millimetres::OFF;
use crate::refusal::Refusal;
use crate::strip_book::{enter, listing, release, Strip, FREED, HALF, RENTERS};

pub struct Keeper {
    pub book: Vec<i32>,
    /// The file's text; none where there is no file yet.
    pub text: Option<Vec<u8>>,
    /// A line was refused or no command.
    pub complained: bool,
}

/// What a run of `book` comes to.
pub struct Sitting {
    pub answers: Vec<String>,
    pub text: Option<Vec<u8>>,
    pub complained: bool,
}

/// A run over all commands, or the line at which the file's text is no book's.
pub fn sitting(text: Option<&[u8]>, commands: &[u8]) -> Result<Sitting, usize> {
    let mut keeper = Keeper::on(text)?;
    let answers = lines(commands).into_iter().map(|line| keeper.answers(line));
    Ok(Sitting {
        answers: answers.collect::<Vec<_>>().concat(),
        text: keeper.text,
        complained: keeper.complained,
    })
}

impl Keeper {
    pub fn on(text: Option<&[u8]>) -> Result<Keeper, usize> {
        let empty = || Ok(FREED.repeat(RENTERS * HALF));
        Ok(Keeper {
            book: text.map_or_else(empty, text::read)?,
            text: text.map(<[u8]>::to_vec),
            complained: false,
        })
    }

    /// No line for a blank one; several where strips are listed.
    pub fn answers(&mut self, line: &[u8]) -> Vec<String> {
        let order = match order::read(line) {
            Line::Blank => return vec![],
            Line::Order(order) => order,
            Line::NoCommand => {
                self.complained = true;
                return vec!["?".to_string()];
            }
        };
        self.done(order).unwrap_or_else(|refused| {
            self.complained = true;
            vec![refused]
        })
    }

    fn done(&mut self, order: Order) -> Result<Vec<String>, String> {
        match order {
            Order::Book(renter, sides) => self.books(renter, sides),
            Order::Release(renter, slot) => self.releases(renter, slot),
            Order::Strips(renter) => self.lists(renter),
            Order::Show => Ok(told(&entries(&self.book))),
        }
    }

    fn books(&mut self, renter: i32, millimetres: [Fraction; 4]) -> Result<Vec<String>, String> {
        let strip = on_grid(millimetres).map_err(|off| refused(off, None))?;
        let entered = enter(&self.book, renter, strip);
        let (slot, after) = entered.map_err(|refusal| refused(refusal, Some(strip)))?;
        self.change(after);
        let slot = slot as i32;
        let entry = Entry {
            renter,
            slot,
            strip,
        };
        Ok(told(&[entry]))
    }

    fn releases(&mut self, renter: i32, slot: i32) -> Result<Vec<String>, String> {
        let after = release(&self.book, renter, slot).map_err(|refusal| refused(refusal, None))?;
        let before = entries(&self.book).into_iter();
        let freed = before.filter(|entry| (entry.renter, entry.slot) == (renter, slot));
        let freed: Vec<Entry> = freed.collect();
        self.change(after);
        Ok(told(&freed))
    }

    fn lists(&self, renter: i32) -> Result<Vec<String>, String> {
        let list = listing(&self.book, renter, 5 * HALF);
        list.map_err(|refusal| refused(refusal, None))?;
        let all = entries(&self.book).into_iter();
        let own: Vec<Entry> = all.filter(|entry| entry.renter == renter).collect();
        Ok(told(&own))
    }

    fn change(&mut self, after: Vec<i32>) {
        self.text = Some(text::text(&after));
        self.book = after;
    }
}

/// The sides are taken in order, and the first that is off the table decides.
fn on_grid(millimetres: [Fraction; 4]) -> Result<Strip, Refusal> {
    let mut strip = [0; 4];
    for (place, side) in millimetres.into_iter().enumerate() {
        strip[place] = grid(side).ok_or(Refusal { number: OFF, place })?;
    }
    Ok(strip)
}

fn told(entries: &[Entry]) -> Vec<String> {
    if entries.is_empty() {
        return vec!["none".to_string()];
    }
    entries.iter().map(Entry::line).collect()
}

/// Number and place, the strip that was asked for, and why.
fn refused(refusal: Refusal, asked: Option<Strip>) -> String {
    let Refusal { number, place } = refusal;
    let asked = asked.map_or(String::new(), |strip| format!(" {}", sides(strip)));
    format!("{number} {place}{asked}: {}", words(number))
}

fn words(number: u8) -> &'static str {
    match number {
        3 => "the window has no area, or its corners are not a strictly convex ring",
        10 => "a number of millimetres is infinite or off the table",
        16 => "the strip shares area with one in the book",
        17 => "none of the renter's slots is free for the strip",
        18 => "the slot to release is not one of the renter's slots in use",
        19 => "there is no such renter: they are 0 and 1",
        _ => unreachable!("no command of a book is refused by {number}"),
    }
}
