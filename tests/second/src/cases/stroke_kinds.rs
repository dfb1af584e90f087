//! The kinds of strokes there are to a rectangle.

use super::numbers::{extreme, near, on_table, onto_table};
use super::windows::Window;
use crate::fraction::common_divisor;
use crate::random::Random;
use crate::table::holds;

pub type Stroke = [i32; 4];

pub fn stroke(random: &mut Random, window: Window) -> Stroke {
    match random.below(20) {
        0 => [(); 4].map(|_| on_table(random)),
        1 | 2 => around(random, window),
        3 => near_borders(random, window),
        4 => touching(random, window),
        5 => along(random, window),
        6 => no_length(random, window),
        7..=9 => across(random, window),
        10..=14 => by_halves(random, window),
        15 | 16 => to_a_side(random, window),
        17 | 18 => through_a_corner(random, window),
        _ => [(); 4].map(|_| extreme(random)),
    }
}

/// Ends up to half a window's size beyond it.
pub fn around(random: &mut Random, window: Window) -> Stroke {
    let [left, bottom, right, top] = window;
    let (wide, high) = ((right - left) / 2 + 2, (top - bottom) / 2 + 2);
    let mut end = || {
        let x = random.between(left - wide, right + wide);
        [x, random.between(bottom - high, top + high)].map(onto_table)
    };
    joined(end(), end())
}

fn near_borders(random: &mut Random, window: Window) -> Stroke {
    joined(by_border(random, window), by_border(random, window))
}

/// A point whose coordinates are each within 1 of a side.
fn by_border(random: &mut Random, window: Window) -> [i32; 2] {
    let [left, bottom, right, top] = window;
    let (x, y) = (random.pick(&[left, right]), random.pick(&[bottom, top]));
    [near(random, x, 1), near(random, y, 1)]
}

/// Through a corner and, but for a hair now and then, through nothing else of the window.
fn touching(random: &mut Random, window: Window) -> Stroke {
    let (corner, inward) = corner(random, window);
    // Into the window by x and out of it by y, or both the other way round.
    let step = [
        inward[0] * random.between(1, 60),
        -inward[1] * random.between(1, 60),
    ];
    let mut stroke = through(random, corner, step);
    if random.one_in(3) {
        let place = random.below(4);
        stroke[place] = near(random, stroke[place], 1);
    }
    stroke
}

/// Into the window by both of a corner's sides at once, or out of it; at times through the opposite corner, too.
fn through_a_corner(random: &mut Random, window: Window) -> Stroke {
    let (corner, inward) = corner(random, window);
    let size = if random.one_in(3) {
        steps([window[2] - window[0], window[3] - window[1]]).1
    } else {
        [random.between(1, 60), random.between(1, 60)]
    };
    through(random, corner, [inward[0] * size[0], inward[1] * size[1]])
}

/// A corner of the window, and in which direction the window lies of it in x and in y.
pub fn corner(random: &mut Random, window: Window) -> ([i32; 2], [i32; 2]) {
    let (right, top) = (random.one_in(2), random.one_in(2));
    let corner = [
        window[if right { 2 } else { 0 }],
        window[if top { 3 } else { 1 }],
    ];
    (corner, [right, top].map(|far| if far { -1 } else { 1 }))
}

/// Up to 30 whole steps before a point and behind it, as far as the table goes; where there are none, it is an end.
pub fn through(random: &mut Random, point: [i32; 2], step: [i32; 2]) -> Stroke {
    let at = |k: i32| [point[0] + k * step[0], point[1] + k * step[1]];
    let on_table = |k: &i32| at(*k).into_iter().all(holds);
    let before = (1..=30).take_while(|k| on_table(&-k)).count();
    let after = (1..=30).take_while(on_table).count();
    let (before, after) = (random.below(before + 1), random.below(after + 1));
    either_way(random, at(-(before as i32)), at(after as i32))
}

/// A way as steps from grid point to grid point: how many, and each of them.
pub fn steps(way: [i32; 2]) -> (i32, [i32; 2]) {
    let count = common_divisor(way[0].into(), way[1].into()) as i32;
    (count, way.map(|n| n / count))
}

/// On the line of a side, or one grid step beside it.
fn along(random: &mut Random, window: Window) -> Stroke {
    let upright = random.one_in(2);
    let (low, high, sides) = if upright {
        (window[1], window[3], [window[0], window[2]])
    } else {
        (window[0], window[2], [window[1], window[3]])
    };
    let side = random.pick(&sides);
    let level = if random.one_in(5) {
        near(random, side, 1)
    } else {
        side
    };
    let mut place = || {
        let middle = random.between(low, high);
        let n = random.pick(&[low, high, middle, low, high]);
        near(random, n, 4)
    };
    let (a, b) = (place(), place());
    if upright {
        [level, a, level, b]
    } else {
        [a, level, b, level]
    }
}

fn no_length(random: &mut Random, window: Window) -> Stroke {
    let point = match random.below(3) {
        0 => by_border(random, window),
        1 => {
            let [left, bottom, right, top] = window;
            [random.between(left, right), random.between(bottom, top)]
        }
        _ => [on_table(random), on_table(random)],
    };
    joined(point, point)
}

/// From beyond one corner to beyond the opposite one: up to 4 shortenings.
fn across(random: &mut Random, window: Window) -> Stroke {
    let [left, bottom, right, top] = window;
    let reach = random.pick(&[3, 20, 400]);
    let mut beyond = |n: i32, sign: i32| onto_table(n + sign * random.between(1, reach));
    let start = [beyond(left, -1), beyond(bottom, -1)];
    let end = [beyond(right, 1), beyond(top, 1)];
    if random.one_in(2) {
        either_way(random, start, end)
    } else {
        either_way(random, [start[0], end[1]], [end[0], start[1]])
    }
}

fn by_halves(random: &mut Random, window: Window) -> Stroke {
    if random.one_in(2) {
        by_halves_of_y(random, window)
    } else {
        mirrored(by_halves_of_y(random, mirrored(window)))
    }
}

/// Meets the left or the right side at a half, or both. From there it goes by steps that each rise by an odd
/// number of halves, so that it is at a grid point after an odd number of steps.
fn by_halves_of_y(random: &mut Random, window: Window) -> Stroke {
    let [left, bottom, right, top] = window;
    let (reach, most) = random.pick(&[(1, 1), (1, 999), (9, 5), (9, 5), (600, 3)]);
    let rise = 2 * random.between(-reach, reach - 1) + 1;
    let anywhere = random.between(bottom, top - 1);
    let below = random.pick(&[bottom, top - 1, anywhere, anywhere, anywhere]);
    let (side, step, before, after) = if (right - left) % 2 == 0 && random.one_in(4) {
        // After two steps it meets the other side, at a half again.
        (left, (right - left) / 2, 1, 3)
    } else {
        let side = random.pick(&[left, right]);
        let step = random.between(1, reach);
        let mut odd = || 2 * random.between(0, most / 2) + 1;
        (side, step, odd(), odd())
    };
    let through = |step: i32, rise: i32, before: i32, after: i32| {
        let at = |steps: i32| [side + steps * step, (2 * below + 1 + steps * rise) / 2];
        [at(-before), at(after)]
    };
    let mut ends = through(step, rise, before, after);
    if !ends.concat().into_iter().all(holds) {
        // The shortest one stays on the table, unless the side is the table's end.
        ends = through(1, rise.signum(), 1, 1);
    }
    either_way(random, ends[0], ends[1])
}

/// One end on a side, the other anywhere around.
fn to_a_side(random: &mut Random, window: Window) -> Stroke {
    let [left, bottom, right, top] = window;
    let inner = [random.between(left, right), random.between(bottom, top)];
    let end = if random.one_in(2) {
        [random.pick(&[left, right]), inner[1]]
    } else {
        [inner[0], random.pick(&[bottom, top])]
    };
    let [x, y, ..] = around(random, window);
    either_way(random, [x, y], end)
}

/// The end first.
pub fn turned([x1, y1, x2, y2]: Stroke) -> Stroke {
    [x2, y2, x1, y1]
}

/// x and y exchanged, of a stroke or of a window.
pub fn mirrored([a, b, c, d]: [i32; 4]) -> [i32; 4] {
    [b, a, d, c]
}

fn joined(start: [i32; 2], end: [i32; 2]) -> Stroke {
    [start[0], start[1], end[0], end[1]]
}

/// Either way round, and on the table.
pub fn either_way(random: &mut Random, start: [i32; 2], end: [i32; 2]) -> Stroke {
    let (start, end) = (start.map(onto_table), end.map(onto_table));
    if random.one_in(2) {
        joined(start, end)
    } else {
        joined(end, start)
    }
}
