//! The kinds of strokes that only touch a rectangle, and of those that nearly do.

use super::numbers::{near, on_table};
use super::stroke_kinds::{self, around, corner, either_way, mirrored, Stroke};
use super::windows::{self, Window};
use crate::random::Random;
use crate::table::MOST;

/// Half of them small, so that strokes around them touch by chance.
pub fn window(random: &mut Random) -> Window {
    if random.one_in(2) {
        return windows::window(random);
    }
    let mut sides = || windows::two(random, |random| random.between(-4, 8));
    let ((left, right), (bottom, top)) = (sides(), sides());
    [left, bottom, right, top]
}

pub fn stroke(random: &mut Random, window: Window) -> Stroke {
    if random.one_in(2) {
        by_x(random, window)
    } else {
        mirrored(by_x(random, mirrored(window)))
    }
}

/// Those that are out at the left or the right.
fn by_x(random: &mut Random, window: Window) -> Stroke {
    let (corner, inward) = corner(random, window);
    // How far the table goes on beyond the corner, away from the window.
    let out = [0, 1].map(|axis| MOST + inward[axis] * corner[axis]);
    match random.below(10) {
        0..=3 if out[0] > 0 => {
            let ways = past_a_corner(random, out);
            let end = |way: [i32; 2]| [0, 1].map(|axis| corner[axis] + inward[axis] * way[axis]);
            either_way(random, end(ways[0]), end(ways[1]))
        }
        4 | 5 if out[0] > 0 => {
            let start = corner[0] - inward[0] * random.between(1, out[0].min(90));
            to_a_side(random, window, [start, corner[0]])
        }
        6 => {
            let y = height(random, window);
            [corner[0], y, corner[0], y]
        }
        7 | 8 => around(random, window),
        _ => stroke_kinds::stroke(random, window),
    }
}

/// The ways from a corner to both ends of a stroke that passes it, where the window lies to the right and above: (-a, b) and
/// (c, -d) with b c = a d. With a little more it cuts the corner off by a hair, with a little less it misses it. Where the
/// table has no such end, the corner is the end.
fn past_a_corner(random: &mut Random, out: [i32; 2]) -> [[i32; 2]; 2] {
    let [right, above] = out.map(|out| 2 * MOST - out);
    let reach = random.pick(&[4, 60, 2 * MOST]);
    let a = random.between(1, out[0].min(reach));
    let b = random.between(1, above.min(reach));
    let more = random.pick(&[0, 0, 0, 1, 2, -1]);
    let mut ends: Vec<[i32; 2]> = (1..=right)
        .filter(|c| (b * c - more) % a == 0)
        .map(|c| [c, -(b * c - more) / a])
        .filter(|[_, down]| (-out[1]..0).contains(down))
        .collect();
    if ends.is_empty() {
        ends.push([0, 0]);
    }
    [[-a, b], random.pick(&ends)]
}

/// From outside to the left or the right side, also to its ends and along the line of the bottom or the top.
fn to_a_side(random: &mut Random, window: Window, [start, side]: [i32; 2]) -> Stroke {
    let y = height(random, window);
    let from = match random.below(3) {
        0 => y,
        1 => near(random, y, 9),
        _ => on_table(random),
    };
    either_way(random, [start, from], [side, y])
}

/// Of a point on the left or the right side.
fn height(random: &mut Random, [_, bottom, _, top]: Window) -> i32 {
    let y = random.between(bottom, top);
    random.pick(&[bottom, top, y, y])
}
