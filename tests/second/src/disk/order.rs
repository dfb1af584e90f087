//! A line of the bookkeeper as an order: what is to be done with the book on disk.

use super::decimal::value;
use crate::fraction::Fraction;

pub const LONGEST_LINE: usize = 400_000;

#[derive(Clone, Copy, Debug, PartialEq, Eq)]
pub enum Order {
    /// The renter, and the sides in millimetres.
    Book(i32, [Fraction; 4]),
    /// The renter, and his slot.
    Release(i32, i32),
    Strips(i32),
    Show,
}

#[derive(Clone, Copy, Debug, PartialEq, Eq)]
pub enum Line {
    /// Nothing but spaces and a comment.
    Blank,
    Order(Order),
    NoCommand,
}

pub fn read(line: &[u8]) -> Line {
    if line.len() > LONGEST_LINE {
        return Line::NoCommand;
    }
    let line = line.strip_suffix(b"\r").unwrap_or(line);
    let told = line.split(|byte| *byte == b'#').next().unwrap_or(line);
    let parts = told.split(|byte| *byte == b' ');
    let words: Vec<&[u8]> = parts.filter(|word| !word.is_empty()).collect();
    if words.is_empty() {
        return Line::Blank;
    }
    order(&words).map_or(Line::NoCommand, Line::Order)
}

fn order(words: &[&[u8]]) -> Option<Order> {
    Some(match words {
        [b"book", renter, left, bottom, right, top] => Order::Book(
            whole(renter)?,
            [value(left)?, value(bottom)?, value(right)?, value(top)?],
        ),
        [b"release", renter, slot] => Order::Release(whole(renter)?, whole(slot)?),
        [b"strips", renter] => Order::Strips(whole(renter)?),
        [b"show"] => Order::Show,
        _ => return None,
    })
}

/// An optional minus and digits; none where 32 bits do not hold it.
fn whole(word: &[u8]) -> Option<i32> {
    let digits = word.strip_prefix(b"-").unwrap_or(word);
    if digits.is_empty() || !digits.iter().all(u8::is_ascii_digit) {
        return None;
    }
    // Past 32 bits it stays past them.
    let add = |value: i64, digit: &u8| (10 * value + i64::from(digit - b'0')).min(1 << 40);
    let size = digits.iter().fold(0, add);
    let sign = if word.len() > digits.len() { -1 } else { 1 };
    i32::try_from(sign * size).ok()
}
