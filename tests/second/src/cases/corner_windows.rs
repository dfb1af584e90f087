//! Strokes against corner windows: `cb`.

use super::flaws::{flawed, PENTAGRAM};
use super::line::Line;
use super::numbers::{extreme, near, on_table, onto_table, spoil};
use super::shapes::{convex, parabola, ring, Corner};
use super::stroke_kinds::{either_way, steps, through, Stroke};
use super::strokes::off;
use super::windows;
use crate::random::Random;

const SQUARE: [i32; 8] = [0, 0, 10, 0, 10, 10, 0, 10];
const ACROSS: Stroke = [-5, 5, 15, 5];
const MOST_CORNERS: [usize; 7] = [3, 4, 5, 8, 12, 16, 16];

/// Every length up to the desk's own limit, and every refusal with those above it.
pub fn fixed() -> Vec<Vec<u8>> {
    let many: Vec<i32> = (0..32).flat_map(|k| [k - 9, (k - 9) * (k - 9)]).collect();
    let mut lines: Vec<Vec<u8>> = (0..=36)
        .chain([63, 64])
        .map(|length| of(&many[..length], ACROSS))
        .collect();
    let mut clockwise = SQUARE;
    clockwise.reverse();
    let off_and_flat = [0, 0, 10, 0, 20, 0, 0, 16_384];
    let off_stroke = [-5, 16_384, 15, i32::MIN];
    for stroke in [ACROSS, off_stroke] {
        lines.push(of(&SQUARE, stroke));
        lines.push(of(&clockwise, stroke));
        lines.push(of(&PENTAGRAM.concat(), stroke));
        lines.push(of(&off_and_flat, stroke));
        lines.push(of(&off_and_flat[..7], stroke));
        lines.push(of(&[16_384; 4], stroke));
        lines.push(of(&[i32::MIN; 40], stroke));
        lines.push(of(&[0, 0, 10, 0, 10, 10, i32::MAX, 10], stroke));
    }
    lines
}

pub fn line(random: &mut Random) -> Vec<u8> {
    let window = windows::window(random);
    let most = random.pick(&MOST_CORNERS);
    let mut corners = convex(random, most, window);
    let mut stroke = stroke(random, &corners);
    if random.one_in(9) {
        corners = flawed(random, &corners);
    }
    if random.one_in(16) {
        corners = miscounted(random);
    }
    let mut list = corners.concat();
    if random.one_in(12) {
        spoil(random, &mut list);
    }
    if random.one_in(24) {
        list.pop();
    }
    if random.one_in(12) {
        stroke = off(random, stroke);
    }
    of(&list, stroke)
}

/// 2 corners, or 17 and more that are strictly convex all the same.
fn miscounted(random: &mut Random) -> Vec<Corner> {
    let count = random.pick(&[2, 17, 18, 32]);
    ring(&parabola(random, count))
}

pub fn stroke(random: &mut Random, corners: &[Corner]) -> Stroke {
    let k = random.below(corners.len());
    let (a, b) = (corners[k], corners[(k + 1) % corners.len()]);
    match random.below(13) {
        0 => [(); 4].map(|_| on_table(random)),
        1 => [(); 4].map(|_| extreme(random)),
        2 => along(random, a, b),
        3 => touching(random, corners, k),
        4 => [a, a].concat().try_into().unwrap_or(ACROSS),
        5 => middle(random, a, b),
        6..=8 => through_a_corner(random, corners, k),
        9 => to_an_edge(random, corners, k),
        _ => between(random, corners),
    }
}

/// On the line of an edge, before it, on it and after it.
fn along(random: &mut Random, a: Corner, b: Corner) -> Stroke {
    let parts = [-1, 0, 1, 2];
    let mut end = || {
        let k = random.pick(&parts);
        [a[0] + k * (b[0] - a[0]), a[1] + k * (b[1] - a[1])].map(onto_table)
    };
    let (start, end) = (end(), end());
    [start[0], start[1], end[0], end[1]]
}

/// Through corner k in the direction between its two neighbours: nothing else of the window is met.
fn touching(random: &mut Random, corners: &[Corner], k: usize) -> Stroke {
    let count = corners.len();
    let (before, after) = (corners[(k + count - 1) % count], corners[(k + 1) % count]);
    let step = [after[0] - before[0], after[1] - before[1]];
    let mut end = || {
        let part = random.between(-2, 2);
        [
            corners[k][0] + part * step[0],
            corners[k][1] + part * step[1],
        ]
        .map(onto_table)
    };
    let (start, end) = (end(), end());
    [start[0], start[1], end[0], end[1]]
}

/// By a corner, half the time the first, where the closing edge meets edge 0: on the way to another corner, or to
/// somewhere between others.
fn through_a_corner(random: &mut Random, corners: &[Corner], k: usize) -> Stroke {
    let from = if random.one_in(2) { 0 } else { k };
    let others: Vec<Corner> = (1..corners.len())
        .map(|j| corners[(from + j) % corners.len()])
        .collect();
    let (a, b) = (random.pick(&others), random.pick(&others));
    let way = [0, 1].map(|axis| (a[axis] + b[axis]) / 2 - corners[from][axis]);
    if way == [0, 0] {
        return ACROSS;
    }
    through(random, corners[from], steps(way).1)
}

/// An end on an edge, or at its first corner where no other grid point lies on it; the other end outside or inside.
fn to_an_edge(random: &mut Random, corners: &[Corner], k: usize) -> Stroke {
    let (a, b) = (corners[k], corners[(k + 1) % corners.len()]);
    let (count, step) = steps([b[0] - a[0], b[1] - a[1]]);
    let j = random.between(0, count);
    let [x, y, ..] = between(random, corners);
    either_way(random, [x, y], [a[0] + j * step[0], a[1] + j * step[1]])
}

/// A stroke of no length, or of one grid step, by the middle of an edge.
fn middle(random: &mut Random, a: Corner, b: Corner) -> Stroke {
    let [x, y] = [(a[0] + b[0]) / 2, (a[1] + b[1]) / 2];
    let reach = random.between(0, 1);
    [x, y, near(random, x, reach), near(random, y, reach)]
}

/// Ends between, on or somewhat outside the corners.
fn between(random: &mut Random, corners: &[Corner]) -> Stroke {
    let mut end = || {
        let (a, b) = (random.pick(corners), random.pick(corners));
        let part = random.between(-4, 12);
        [0, 1].map(|axis| {
            let n = a[axis] + (b[axis] - a[axis]) * part / 8;
            near(random, onto_table(n), 2)
        })
    };
    let (start, end) = (end(), end());
    [start[0], start[1], end[0], end[1]]
}

pub fn of(corners: &[i32], stroke: Stroke) -> Vec<u8> {
    Line::of("cb").list(corners).words(&stroke).end()
}
