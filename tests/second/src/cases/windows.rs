//! Rectangle windows: small, thin, of any size, at the ends of the table, and faulty ones.

use super::numbers::{anywhere, extreme, on_table, spoil};
use crate::random::Random;
use crate::table::MOST;

pub type Window = [i32; 4];

pub fn window(random: &mut Random) -> Window {
    match random.below(8) {
        0 | 1 => [0, 0, 10, 10],
        2 | 3 => small(random, 24),
        4 => small(random, 3),
        5 => between(random, on_table),
        6 => between(random, extreme),
        _ => [-MOST, -MOST, MOST, MOST],
    }
}

fn small(random: &mut Random, most: i32) -> Window {
    let (left, bottom) = (random.between(-20, 20), random.between(-20, 20));
    let (width, height) = (random.between(1, most), random.between(1, most));
    [left, bottom, left + width, bottom + height]
}

fn between(random: &mut Random, number: fn(&mut Random) -> i32) -> Window {
    let (left, right) = two(random, number);
    let (bottom, top) = two(random, number);
    [left, bottom, right, top]
}

/// Two different numbers in order.
pub fn two(random: &mut Random, mut number: impl FnMut(&mut Random) -> i32) -> (i32, i32) {
    loop {
        let (a, b) = (number(random), number(random));
        if a != b {
            return (a.min(b), a.max(b));
        }
    }
}

/// Off the table, without area, or both.
pub fn faulty(random: &mut Random) -> Window {
    let mut window = window(random);
    match random.below(6) {
        0 => spoil(random, &mut window),
        1 => window.swap(0, 2),
        2 => window.swap(1, 3),
        3 => window[2] = window[0],
        4 => window[3] = window[1],
        _ => window = [(); 4].map(|_| anywhere(random)),
    }
    if random.one_in(4) {
        spoil(random, &mut window);
    }
    window
}
