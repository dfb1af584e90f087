//! Strokes aimed at a rule that asks where the window's four corners lie of the stroke's line, with what is kept of them
//! worked out by hand, each also turned round: by every pair of sides, along each border, past each corner, and such as have
//! the largest and the smallest cross products that there are on the table.

use super::line::Answered;
use super::stroke_answers::{alone, both_ways, kept, Kept, Missed, OWN};
use super::windows::Window;
use crate::table::MOST;

const SQUARE: Window = [0, 0, 10, 10];
/// One grid step from the table's end.
const NEXT: i32 = MOST - 1;

pub fn lines() -> Vec<Vec<u8>> {
    answered().into_iter().map(|(line, _)| line).collect()
}

pub fn answered() -> Vec<Answered> {
    [
        both_ways(SQUARE, &MISSED, &BY_TWO_SIDES),
        both_ways(SQUARE, &[], &FROM_BEYOND_TWO_SIDES),
        both_ways(SQUARE, &[], &along_borders()),
        past_far_corners(),
        alone([0, 0, MOST, MOST], &[], &[touch_in_the_middle([0, 2])]),
        alone([-MOST, -MOST, 0, 0], &[], &[touch_in_the_middle([3, 1])]),
        alone([-MOST, -NEXT, -NEXT, MOST], &[(FLAT, [1, 1])], &[]),
        alone([-NEXT, -MOST, MOST, -NEXT], &[], &[BY_A_HAIR]),
    ]
    .concat()
}

/// Without a side in common that both ends are out at, but for the last two, which lie on a border's line.
const MISSED: [Missed; 6] = [
    // A grid step short of a touch: past (10, 0) and (0, 10).
    ([15, 4, 5, -5], [1, 1]),
    ([-5, 6, 5, 15], [1, 1]),
    // By a cross product of 1: past (10, 0) and (10, 10).
    ([11, 0, 9, -1], [1, 1]),
    ([11, 10, 9, 11], [1, 1]),
    ([-5, 0, -1, 0], [0, 0]),
    ([10, 11, 10, 15], [0, 0]),
];

/// One corner lies on the one side of the line and three on the other, or two on either.
const BY_TWO_SIDES: [Kept; 8] = [
    kept([-4, 6, 6, -4], [2, 5, 3, 5], [0, 2, 2, 0], [0, 2], 2),
    kept([14, 6, 4, -4], [2, 5, 3, 5], [10, 2, 8, 0], [1, 2], 2),
    kept([14, 4, 4, 14], [2, 5, 3, 5], [10, 8, 8, 10], [1, 3], 2),
    kept([-4, 4, 6, 14], [2, 5, 3, 5], [0, 8, 2, 10], [0, 3], 2),
    kept([-5, -1, 15, 11], [1, 4, 3, 4], [0, 2, 10, 8], [0, 1], 2),
    kept([-5, 11, 15, -1], [1, 4, 3, 4], [0, 8, 10, 2], [0, 1], 2),
    kept([-1, -5, 11, 15], [1, 4, 3, 4], [2, 0, 8, 10], [2, 3], 4),
    kept([11, -5, -1, 15], [1, 4, 3, 4], [8, 0, 2, 10], [2, 3], 4),
];

/// The start is out at two sides, and the corner between them tells by which of the two the stroke comes in.
const FROM_BEYOND_TWO_SIDES: [Kept; 8] = [
    kept([-4, -2, 4, 6], [1, 2, 1, 1], [0, 2, 4, 6], [0, OWN], 1),
    kept([-2, -4, 6, 4], [1, 2, 1, 1], [2, 0, 6, 4], [2, OWN], 2),
    kept([14, -2, 6, 6], [1, 2, 1, 1], [10, 2, 6, 6], [1, OWN], 1),
    kept([12, -4, 4, 4], [1, 2, 1, 1], [8, 0, 4, 4], [2, OWN], 2),
    kept([14, 12, 6, 4], [1, 2, 1, 1], [10, 8, 6, 4], [1, OWN], 1),
    kept([12, 14, 4, 6], [1, 2, 1, 1], [8, 10, 4, 6], [3, OWN], 2),
    kept([-4, 12, 4, 4], [1, 2, 1, 1], [0, 8, 4, 4], [0, OWN], 1),
    kept([-2, 14, 6, 6], [1, 2, 1, 1], [2, 10, 6, 6], [3, OWN], 2),
];

/// From beyond each border's end to its middle, and from within to its other end.
fn along_borders() -> Vec<Kept> {
    let level = [0, 10].map(|y| {
        [
            kept([-5, y, 5, y], [1, 2, 1, 1], [0, y, 5, y], [0, OWN], 1),
            kept([4, y, 10, y], [0, 1, 1, 1], [4, y, 10, y], [OWN, OWN], 0),
        ]
    });
    let upright = level.concat().into_iter().map(|kept| kept.mirrored());
    level.concat().into_iter().chain(upright).collect()
}

/// From corner to corner of the table, past a window in another one: its far corner has a cross product of 32,766 times
/// 32,766, and the two ends are out at different sides.
fn past_far_corners() -> Vec<Answered> {
    let (rising, falling) = ([-MOST, -MOST, MOST, MOST], [-MOST, MOST, MOST, -MOST]);
    let windows = [
        ([NEXT, NEXT, MOST, MOST], falling),
        ([-MOST, -MOST, -NEXT, -NEXT], falling),
        ([-MOST, NEXT, -NEXT, MOST], rising),
        ([NEXT, -MOST, MOST, -NEXT], rising),
    ];
    windows
        .into_iter()
        .flat_map(|(window, stroke)| alone(window, &[(stroke, [1, 1])], &[]))
        .collect()
}

/// Of a quarter of the table, which has as large a cross product at the corner that lies opposite.
fn touch_in_the_middle(sides: [i32; 2]) -> Kept {
    let falling = [-MOST, MOST, MOST, -MOST];
    kept(falling, [1, 2, 1, 2], [0, 0, 0, 0], sides, 2)
}

/// Below (-16382, -16382) by a cross product of 1: a window to the left and above is missed by a hair.
const FLAT: [i32; 4] = [-MOST, -MOST, MOST, NEXT];

/// The same by a window to the right and below, of which the corner is cut off: both ends are rounded to it.
const BY_A_HAIR: Kept = kept(
    FLAT,
    [1, 32_766, 1, 32_765],
    [-NEXT, -NEXT, -NEXT, -NEXT],
    [0, 3],
    2,
);
