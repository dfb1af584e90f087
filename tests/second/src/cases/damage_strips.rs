//! Damage to the lines of strips: most are told as a book tells them, and are no strips of one book.

use super::damage::Text;
use super::numbers::off_table;
use crate::disk::entry::Entry;
use crate::random::Random;

pub fn slot_twice(random: &mut Random, text: &Text) -> Vec<u8> {
    let mut entries = text.entries.clone();
    let place = 1 + random.below(entries.len() - 1);
    let Entry { renter, slot, .. } = entries[place - 1];
    entries[place] = Entry {
        renter,
        slot,
        ..entries[place]
    };
    Text::of(&entries)
}

/// A strip is moved onto another, which it covers or overlaps by a step.
pub fn area_shared(random: &mut Random, text: &Text) -> Vec<u8> {
    let mut entries = text.entries.clone();
    let [one, other] = [(); 2].map(|_| random.below(entries.len()));
    let [left, bottom, right, top] = entries[other].strip;
    let [over, up] = [(); 2].map(|_| random.pick(&[0, 0, -1, 1]));
    entries[one].strip = match random.below(3) {
        0 => [left, bottom, right, top],
        1 => [left + over, bottom + up, right + over, top + up],
        _ => [right - 1, top - 1, right + 1, top + 1],
    };
    Text::of(&entries)
}

pub fn off_the_table(random: &mut Random, text: &Text) -> Vec<u8> {
    let mut entries = text.entries.clone();
    let place = random.below(entries.len());
    let side = random.below(4);
    // Outwards, so that the strip has area; or anywhere.
    entries[place].strip[side] = match random.below(3) {
        0 => off_table(random),
        _ if side < 2 => -16_384,
        _ => 16_384,
    };
    Text::of(&entries)
}

pub fn without_area(random: &mut Random, text: &Text) -> Vec<u8> {
    let mut entries = text.entries.clone();
    let place = random.below(entries.len());
    let strip = &mut entries[place].strip;
    match random.below(4) {
        0 => strip[2] = strip[0],
        1 => strip[3] = strip[1],
        2 => strip.swap(0, 2),
        _ => strip.swap(1, 3),
    }
    Text::of(&entries)
}

pub fn no_such_slot(random: &mut Random, text: &Text) -> Vec<u8> {
    let mut entries = text.entries.clone();
    let place = random.below(entries.len());
    match random.below(2) {
        0 => entries[place].renter = random.pick(&[-1, 2, 7, i32::MAX, i32::MIN]),
        _ => entries[place].slot = random.pick(&[-1, 32, 33, 64, i32::MAX, i32::MIN]),
    }
    Text::of(&entries)
}

/// The lines are right each, and stand in another order.
pub fn out_of_order(random: &mut Random, text: &Text) -> Vec<u8> {
    let mut entries = text.entries.clone();
    match random.below(2) {
        0 => entries.reverse(),
        _ => entries.rotate_left(1),
    }
    Text::of(&entries)
}

/// Before the sign of equality or behind it, in the line of a strip.
pub fn digit_changed(random: &mut Random, text: &Text, before: bool) -> Vec<u8> {
    let mut lines = text.lines();
    let line = &mut lines[1 + random.below(text.entries.len())];
    let middle = line.iter().position(|byte| *byte == b'=').unwrap_or(0);
    let side = if before {
        0..middle
    } else {
        middle..line.len()
    };
    let digits: Vec<usize> = side.filter(|k| line[*k].is_ascii_digit()).collect();
    let place = random.pick(&digits);
    let other = 1 + random.below(9) as u8;
    line[place] = b'0' + (line[place] - b'0' + other) % 10;
    lines.concat()
}

/// One word of a strip's line in a spelling that a book does not use.
pub fn spelled_otherwise(random: &mut Random, text: &Text) -> Vec<u8> {
    let mut lines = text.lines();
    let line = &mut lines[1 + random.below(text.entries.len())];
    let told = String::from_utf8_lossy(line).trim_end().to_string();
    let mut words: Vec<String> = told.split(' ').map(str::to_string).collect();
    let number = random.pick(&[0, 1, 2, 3, 4, 5, 7, 8, 9, 10]);
    let word = &mut words[number];
    *word = match random.below(7) {
        0 => format!("0{word}"),
        1 => format!("+{word}"),
        2 => format!("-{word}"),
        3 if word.contains('.') => format!("{word}0"),
        3 => format!("{word}.0"),
        4 => format!("{word}."),
        5 => word.replacen("0.", ".", 1),
        _ => format!("{word}e0"),
    };
    *line = (words.join(" ") + "\n").into_bytes();
    lines.concat()
}
