//! A strip with its renter and slot, and the line that tells it, in the file as in an answer.

use super::decimal::millimetres;
use crate::strip_book::{Strip, FREED, HALF};

#[derive(Clone, Copy, Debug, PartialEq, Eq)]
pub struct Entry {
    pub renter: i32,
    pub slot: i32,
    pub strip: Strip,
}

impl Entry {
    pub fn line(&self) -> String {
        format!("{} {} {}", self.renter, self.slot, sides(self.strip))
    }
}

/// On the grid, and in millimetres.
pub fn sides(strip: Strip) -> String {
    let grid = strip.map(|g| g.to_string()).join(" ");
    format!("{grid} = {} mm", strip.map(millimetres).join(" "))
}

/// The strips of a book, those of renter 0 first, each renter's in the order of their slots.
pub fn entries(book: &[i32]) -> Vec<Entry> {
    let slots = (0..).zip(book.chunks_exact(FREED.len()));
    let in_use = slots.filter(|(_, five)| five[0] == 1);
    in_use.map(|(k, five)| entry(k, five)).collect()
}

fn entry(k: i32, five: &[i32]) -> Entry {
    Entry {
        renter: k / HALF as i32,
        slot: k % HALF as i32,
        strip: [five[1], five[2], five[3], five[4]],
    }
}
