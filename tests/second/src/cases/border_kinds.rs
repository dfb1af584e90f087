//! Neighbouring strips, and the kinds of strokes there are to the border between them.

use super::neighbours::Neighbours;
use super::numbers::near;
use super::stroke_kinds::{self, around, either_way, through, Stroke};
use super::touch_kinds;
use super::windows::Window;
use crate::random::Random;

pub fn strips(random: &mut Random) -> Neighbours {
    let joined = wide(random);
    let [left, _, right, _] = joined;
    let anywhere = random.between(left + 1, right - 1);
    // As often as not one of the strips is one grid step wide.
    let border = random.pick(&[left + 1, right - 1, anywhere, anywhere]);
    Neighbours { joined, border }
}

/// A window with room for a border.
fn wide(random: &mut Random) -> Window {
    loop {
        let window = touch_kinds::window(random);
        if window[2] - window[0] > 1 {
            return window;
        }
    }
}

/// To either strip and to the joined window as to any other, and to the border in particular.
pub fn stroke(random: &mut Random, strips: &Neighbours) -> Stroke {
    let window = random.pick(&strips.windows());
    match random.below(20) {
        0..=2 => stroke_kinds::stroke(random, window),
        3 | 4 => touch_kinds::stroke(random, window),
        5..=9 => from_strip_to_strip(random, strips),
        10 | 11 => {
            let ends = [(); 2].map(|_| by_the_lines(random, strips));
            either_way(random, ends[0], ends[1])
        }
        12 | 13 => through_the_border(random, strips),
        14 | 15 => by_a_half(random, strips),
        16 => along(random, strips),
        17 | 18 => to_the_border(random, strips),
        _ => {
            let point = by_the_lines(random, strips);
            either_way(random, point, point)
        }
    }
}

/// From in or around the one to in or around the other.
fn from_strip_to_strip(random: &mut Random, strips: &Neighbours) -> Stroke {
    let [left, right, _] = strips.windows();
    let ends = [left, right].map(|strip| {
        let [x, y, ..] = around(random, strip);
        [x, y]
    });
    either_way(random, ends[0], ends[1])
}

/// A point on the lines of the sides, where two of them cross, too, or a grid step beside them.
fn by_the_lines(random: &mut Random, strips: &Neighbours) -> [i32; 2] {
    let [left, _, right, _] = strips.joined;
    let inside = random.between(left, right);
    let x = random.pick(&[strips.border, strips.border, left, right, inside]);
    let y = height(random, strips);
    let reach = random.pick(&[0, 0, 0, 1]);
    [near(random, x, reach), near(random, y, reach)]
}

/// Of a point on the border, at its ends as often as between them.
fn height(random: &mut Random, strips: &Neighbours) -> i32 {
    let [_, bottom, _, top] = strips.joined;
    let between = random.between(bottom, top);
    random.pick(&[bottom, top, between, between])
}

/// Through a grid point of the border, or ending there.
fn through_the_border(random: &mut Random, strips: &Neighbours) -> Stroke {
    let point = [strips.border, height(random, strips)];
    let reach = random.pick(&[3, 60, 900]);
    let step = [random.between(1, reach), random.between(-reach, reach)];
    through(random, point, step)
}

/// Goes as far to either side of the border and rises by an odd number, so that its height there is a half.
fn by_a_half(random: &mut Random, strips: &Neighbours) -> Stroke {
    let [_, bottom, _, top] = strips.joined;
    let below = random.between(bottom, top - 1);
    let reach = random.pick(&[1, 8, 400]);
    let (way, rise) = (random.between(1, reach), random.between(-reach, reach));
    let start = [strips.border - way, below - rise];
    let end = [strips.border + way, below + 1 + rise];
    either_way(random, start, end)
}

/// On the border's line: from end to end of it, over them, only up to them, or all of it beyond one of them.
fn along(random: &mut Random, strips: &Neighbours) -> Stroke {
    let [_, bottom, _, top] = strips.joined;
    let (end, out) = random.pick(&[(bottom, -1), (top, 1)]);
    let kind = random.below(4);
    let ends = [(); 2].map(|_| match kind {
        0 => [strips.border, end + out * random.between(1, 9)],
        1 => {
            let y = height(random, strips);
            [strips.border, near(random, y, 4)]
        }
        _ => [strips.border, height(random, strips)],
    });
    either_way(random, ends[0], ends[1])
}

/// From anywhere around to a grid point of the border.
fn to_the_border(random: &mut Random, strips: &Neighbours) -> Stroke {
    let [x, y, ..] = around(random, strips.joined);
    let end = [strips.border, height(random, strips)];
    either_way(random, [x, y], end)
}
