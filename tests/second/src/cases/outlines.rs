//! Outlines against rectangles: `outline`.

use super::flaws::flawed;
use super::line::Line;
use super::numbers::{near, spoil};
use super::room::room;
use super::shapes::{convex, parabola, ring, Corner};
use super::windows::{self, two, Window};
use crate::outline;
use crate::random::Random;

const MOST_CORNERS: [usize; 9] = [3, 4, 6, 9, 16, 32, 48, 64, 64];

pub fn line(random: &mut Random) -> Vec<u8> {
    let mut window = windows::window(random);
    let most = random.pick(&MOST_CORNERS);
    let mut corners = convex(random, most, window);
    if corners.len() > 6 || !random.one_in(3) {
        window = over(random, &corners).unwrap_or(window);
    }
    let needed = 4 * outline::ring(window, &corners.concat()).len();
    let room = room(random, needed);
    if random.one_in(9) {
        corners = flawed(random, &corners);
    }
    if random.one_in(12) {
        corners = miscounted(random);
    }
    let mut list = corners.concat();
    if random.one_in(12) {
        spoil(random, &mut list);
    }
    if random.one_in(24) {
        list.pop();
    }
    if random.one_in(12) {
        window = windows::faulty(random);
    }
    of(order(random), room, window, &list)
}

/// 2 corners, or 65 and more that are strictly convex all the same.
fn miscounted(random: &mut Random) -> Vec<Corner> {
    let count = random.pick(&[2, 65, 66, 90]);
    ring(&parabola(random, count))
}

fn order(random: &mut Random) -> u32 {
    match random.below(16) {
        0 => random.pick(&[24, 25, 255, u32::MAX]),
        _ => random.below(24) as u32,
    }
}

/// A window with sides at, beside and between the outline's corners.
fn over(random: &mut Random, corners: &[Corner]) -> Option<Window> {
    let [left, right] = span(random, corners, 0)?;
    let [bottom, top] = span(random, corners, 1)?;
    Some([left, bottom, right, top])
}

fn span(random: &mut Random, corners: &[Corner], axis: usize) -> Option<[i32; 2]> {
    let all: Vec<i32> = corners.iter().map(|corner| corner[axis]).collect();
    let (low, high) = (*all.iter().min()?, *all.iter().max()?);
    if low == high {
        return None;
    }
    // Cutting off little leaves a ring of many corners.
    if corners.len() > 6 && !random.one_in(4) {
        let little = (high - low) / 8;
        return Some([near(random, low, little), near(random, high, little)]);
    }
    let (low, high) = two(random, |random| match random.below(4) {
        0 => random.pick(&all),
        1 => near_one(random, &all),
        _ => random.between(low, high),
    });
    Some([low, high])
}

fn near_one(random: &mut Random, all: &[i32]) -> i32 {
    let n = random.pick(all);
    near(random, n, 1)
}

pub fn of(order: u32, room: usize, window: Window, list: &[i32]) -> Vec<u8> {
    Line::of("outline")
        .word(order)
        .word(room)
        .words(&window)
        .list(list)
        .end()
}
