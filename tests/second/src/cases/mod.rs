//! The lines on which the two programs are compared. First come the worked examples, the same for every
//! seed, then each family's fixed list, the few long lines, runs of a strip book, and random lines up to the count;
//! at times the next line has the stroke turned round, or the list with its touches asked for.

pub mod batches;
mod book_answers;
pub mod book_asked;
pub mod book_by_hand;
mod book_flaws;
mod book_halves;
mod book_listings;
mod book_morning;
mod book_refusals;
pub mod book_runs;
pub mod books;
mod border_kinds;
pub mod by_hand;
pub mod command_forms;
pub mod commands;
pub mod corner_cuts;
pub mod corner_windows;
pub mod cuts;
pub mod damage;
mod damage_bytes;
mod damage_strips;
mod drawing_faults;
mod drawings;
mod examples;
mod flaws;
mod floats;
pub mod grounds;
pub mod halves;
pub mod joined;
mod joined_afar;
mod joined_lists;
mod joined_strokes;
mod line;
pub mod list_answers;
mod long;
mod malformed;
pub mod neighbours;
mod no_books;
mod numbers;
mod outline_limits;
mod outlines;
mod room;
pub mod shapes;
pub mod sides;
mod sketch;
mod slips;
mod stroke_answers;
pub mod stroke_kinds;
pub mod strokes;
pub mod touch_kinds;
mod touch_rooms;
pub mod touches;
mod touches_afar;
pub mod windows;

use crate::random::Random;

/// Lines in runs of a strip book: one run that fills both halves, one that fills a half, and four short ones.
const IN_RUNS: usize = 310;

/// At least the fixed lists, the long lines and the runs, else exactly `count` lines.
pub fn lot(seed: u64, count: usize) -> Vec<Vec<u8>> {
    let mut random = Random::new(seed);
    let mut lot = fixed();
    lot.extend(long::lines(&mut random));
    lot.extend(book_runs::lines(&mut random, IN_RUNS));
    while lot.len() + 1 < count {
        let line = next(&mut random, lot.last());
        lot.push(line);
    }
    // The last line has no newline, so it must not be an empty one.
    lot.push(strokes::line(&mut random));
    lot
}

fn fixed() -> Vec<Vec<u8>> {
    let lists = [
        examples::lines(),
        floats::fixed(),
        strokes::fixed(),
        halves::lines(),
        cuts::lines(),
        corner_windows::fixed(),
        corner_cuts::lines(),
        batches::fixed(),
        touches::lines(),
        joined::fixed(),
        outline_limits::lines(),
        drawing_faults::lines(),
        book_by_hand::lines(),
        malformed::lines(),
    ];
    lists.concat()
}

/// At times the line before once more: its stroke turned round, or its list with the touches asked for.
fn next(random: &mut Random, before: Option<&Vec<u8>>) -> Vec<u8> {
    let again = before.and_then(|line| match random.below(4) {
        0 => strokes::turned_round(random, line),
        1 | 2 => batches::with_touches(random, line),
        _ => None,
    });
    again.unwrap_or_else(|| any(random))
}

/// A line of some family; every twentieth or so is spoiled as a line of the desk.
fn any(random: &mut Random) -> Vec<u8> {
    let line = well_formed(random);
    if random.one_in(20) {
        slips::slip(random, line)
    } else {
        line
    }
}

fn well_formed(random: &mut Random) -> Vec<u8> {
    match random.below(124) {
        0..=13 => floats::line(random),
        14..=45 => strokes::line(random),
        46..=65 => corner_windows::line(random),
        66..=76 => batches::line(random),
        77..=94 => outlines::line(random),
        95..=105 => drawings::line(random),
        106..=113 => book_runs::line(random),
        _ => batches::touching(random),
    }
}
