//! Strokes aimed at the side that fixes each end, with what is kept of them worked out by hand, each also turned round:
//! through corners, where the lower of two sides is named, to the border and from it, and along it.

use super::line::Answered;
use super::stroke_answers::{both_ways, kept, Kept, Missed, OWN};
use super::windows::Window;
use crate::table::MOST;

const SQUARE: Window = [0, 0, 10, 10];

pub fn lines() -> Vec<Vec<u8>> {
    answered().into_iter().map(|(line, _)| line).collect()
}

pub fn answered() -> Vec<Answered> {
    let most = MOST - 1;
    [
        both_ways(SQUARE, &MISSED, &THROUGH_CORNERS),
        both_ways(SQUARE, &[], &TOUCHES),
        both_ways(SQUARE, &[], &TO_THE_BORDER),
        both_ways(SQUARE, &[], &TO_CORNERS),
        both_ways(SQUARE, &[], &FROM_THE_BORDER),
        both_ways(SQUARE, &[], &WHOLE),
        both_ways(SQUARE, &[], &ALONG_BORDERS),
        both_ways([-5_000, -3_000, 7_000, 9_000], &[], &BY_A_HAIR),
        both_ways([16_381, 16_382, MOST, MOST], &[], &[BOTTOM_BY_A_HAIR]),
        both_ways([-MOST, -MOST, 16_382, 16_381], &[], &[TOP_BY_A_HAIR]),
        both_ways([-most, -most, most, most], &[], &[WHOLE_TABLE]),
        both_ways([0, 0, 1, 1], &[], &ONE_STEP_WIDE),
    ]
    .concat()
}

/// One that would come in by the left side but ends before it; such as pass beside a side or a corner; no length.
const MISSED: [Missed; 8] = [
    ([-5, 5, -1, 5], [0, 0]),
    ([5, 15, 5, 11], [0, 0]),
    ([-5, -1, 15, -1], [0, 0]),
    ([11, -5, 11, 15], [0, 0]),
    ([-5, 4, 5, -5], [1, 1]),
    ([15, 6, 5, 15], [1, 1]),
    ([-1, 0, -1, 0], [0, 0]),
    ([10, 11, 10, 11], [0, 0]),
];

const THROUGH_CORNERS: [Kept; 12] = [
    // Inward, and turned round outward: left or right is a lower number than bottom or top.
    kept([-5, -5, 5, 5], [1, 2, 1, 1], [0, 0, 5, 5], [0, OWN], 1),
    kept([15, -5, 5, 5], [1, 2, 1, 1], [10, 0, 5, 5], [1, OWN], 1),
    kept([-5, 15, 5, 5], [1, 2, 1, 1], [0, 10, 5, 5], [0, OWN], 1),
    kept([15, 15, 5, 5], [1, 2, 1, 1], [10, 10, 5, 5], [1, OWN], 1),
    // Steep and flat.
    kept([-1, -3, 1, 3], [1, 2, 1, 1], [0, 0, 1, 3], [0, OWN], 1),
    kept([16, 13, 4, 7], [1, 2, 1, 1], [10, 10, 4, 7], [1, OWN], 1),
    // Through two corners.
    kept([-5, -5, 15, 15], [1, 4, 3, 4], [0, 0, 10, 10], [0, 1], 2),
    kept([15, -5, -5, 15], [1, 4, 3, 4], [10, 0, 0, 10], [1, 0], 2),
    // Through a corner and through a side.
    kept([-6, -3, 14, 7], [3, 10, 4, 5], [0, 0, 10, 5], [0, 1], 2),
    kept([-4, 3, 16, 13], [1, 5, 7, 10], [0, 5, 10, 10], [0, 1], 2),
    kept([3, -4, 13, 16], [1, 5, 7, 10], [5, 0, 10, 10], [2, 1], 2),
    kept([7, -4, -3, 16], [1, 5, 7, 10], [5, 0, 0, 10], [2, 0], 2),
];

/// Of the two sides at the corner one is crossed inward and one outward, so that each is named.
const TOUCHES: [Kept; 6] = [
    kept([15, 5, 5, -5], [1, 2, 1, 2], [10, 0, 10, 0], [1, 2], 2),
    kept([-5, 5, 5, 15], [1, 2, 1, 2], [0, 10, 0, 10], [0, 3], 2),
    kept([15, 5, 5, 15], [1, 2, 1, 2], [10, 10, 10, 10], [1, 3], 2),
    kept([-6, 2, 3, -1], [2, 3, 2, 3], [0, 0, 0, 0], [0, 2], 2),
    kept([9, -2, 11, 2], [1, 2, 1, 2], [10, 0, 10, 0], [2, 1], 2),
    kept([-1, 8, 1, 12], [1, 2, 1, 2], [0, 10, 0, 10], [0, 3], 2),
];

/// t0 is 1/1: the side is named that the stroke comes to. Turned round t1 is 0/1.
const TO_THE_BORDER: [Kept; 6] = [
    kept([-5, 5, 0, 5], [1, 1, 1, 1], [0, 5, 0, 5], [0, OWN], 1),
    kept([15, 5, 10, 5], [1, 1, 1, 1], [10, 5, 10, 5], [1, OWN], 1),
    kept([5, -5, 5, 0], [1, 1, 1, 1], [5, 0, 5, 0], [2, OWN], 1),
    kept([5, 15, 5, 10], [1, 1, 1, 1], [5, 10, 5, 10], [3, OWN], 1),
    // Past the line of the bottom first; past that of the left side first.
    kept([-4, -3, 0, 2], [1, 1, 1, 1], [0, 2, 0, 2], [0, OWN], 1),
    kept([-3, -4, 2, 0], [1, 1, 1, 1], [2, 0, 2, 0], [2, OWN], 2),
];

const TO_CORNERS: [Kept; 12] = [
    // By both sides.
    kept([-5, -5, 0, 0], [1, 1, 1, 1], [0, 0, 0, 0], [0, OWN], 1),
    kept([15, -3, 10, 0], [1, 1, 1, 1], [10, 0, 10, 0], [1, OWN], 1),
    kept([-4, 12, 0, 10], [1, 1, 1, 1], [0, 10, 0, 10], [0, OWN], 1),
    kept(
        [13, 16, 10, 10],
        [1, 1, 1, 1],
        [10, 10, 10, 10],
        [1, OWN],
        1,
    ),
    // By one side; the other it would cross outward, if it went on.
    kept([-7, 3, 0, 0], [1, 1, 1, 1], [0, 0, 0, 0], [0, OWN], 1),
    kept([20, 5, 10, 10], [1, 1, 1, 1], [10, 10, 10, 10], [1, OWN], 1),
    kept([5, -5, 10, 0], [1, 1, 1, 1], [10, 0, 10, 0], [2, OWN], 1),
    kept([4, 17, 0, 10], [1, 1, 1, 1], [0, 10, 0, 10], [3, OWN], 1),
    // By one side, along the line of the other.
    kept([-5, 0, 0, 0], [1, 1, 1, 1], [0, 0, 0, 0], [0, OWN], 1),
    kept(
        [15, 10, 10, 10],
        [1, 1, 1, 1],
        [10, 10, 10, 10],
        [1, OWN],
        1,
    ),
    kept([0, -5, 0, 0], [1, 1, 1, 1], [0, 0, 0, 0], [2, OWN], 1),
    kept(
        [10, 15, 10, 10],
        [1, 1, 1, 1],
        [10, 10, 10, 10],
        [3, OWN],
        1,
    ),
];

/// t0 is 0/1 although the start lies on the line of a side that is crossed inward there.
const FROM_THE_BORDER: [Kept; 10] = [
    kept([0, 5, 20, 5], [0, 1, 1, 2], [0, 5, 10, 5], [OWN, 1], 1),
    kept([10, 5, -10, 5], [0, 1, 1, 2], [10, 5, 0, 5], [OWN, 0], 1),
    kept([5, 0, 5, 20], [0, 1, 1, 2], [5, 0, 5, 10], [OWN, 3], 1),
    kept([5, 10, 5, -10], [0, 1, 1, 2], [5, 10, 5, 0], [OWN, 2], 1),
    // From a corner through the opposite one.
    kept([0, 0, 20, 20], [0, 1, 1, 2], [0, 0, 10, 10], [OWN, 1], 1),
    kept([10, 0, -10, 20], [0, 1, 1, 2], [10, 0, 0, 10], [OWN, 0], 1),
    // At a corner, inward by one side and at once outward by the other.
    kept([0, 0, 5, -5], [0, 1, 0, 1], [0, 0, 0, 0], [OWN, 2], 1),
    kept([10, 10, 5, 15], [0, 1, 0, 1], [10, 10, 10, 10], [OWN, 3], 1),
    kept([0, 10, -3, 4], [0, 1, 0, 1], [0, 10, 0, 10], [OWN, 0], 1),
    kept([10, 0, 12, 1], [0, 1, 0, 1], [10, 0, 10, 0], [OWN, 1], 1),
];

/// Both own ends remain, on the border too.
const WHOLE: [Kept; 10] = [
    kept([0, 5, 5, 6], [0, 1, 1, 1], [0, 5, 5, 6], [OWN, OWN], 0),
    kept([0, 5, 10, 5], [0, 1, 1, 1], [0, 5, 10, 5], [OWN, OWN], 0),
    kept([5, 10, 6, 0], [0, 1, 1, 1], [5, 10, 6, 0], [OWN, OWN], 0),
    kept([0, 0, 10, 10], [0, 1, 1, 1], [0, 0, 10, 10], [OWN, OWN], 0),
    kept([10, 0, 0, 10], [0, 1, 1, 1], [10, 0, 0, 10], [OWN, OWN], 0),
    kept([0, 2, 0, 8], [0, 1, 1, 1], [0, 2, 0, 8], [OWN, OWN], 0),
    kept([0, 0, 10, 0], [0, 1, 1, 1], [0, 0, 10, 0], [OWN, OWN], 0),
    // Of no length.
    kept([0, 0, 0, 0], [0, 1, 1, 1], [0, 0, 0, 0], [OWN, OWN], 0),
    kept([10, 5, 10, 5], [0, 1, 1, 1], [10, 5, 10, 5], [OWN, OWN], 0),
    kept([5, 5, 5, 5], [0, 1, 1, 1], [5, 5, 5, 5], [OWN, OWN], 0),
];

/// The line of the border that it runs along is crossed nowhere, so a side of the other axis is named.
const ALONG_BORDERS: [Kept; 9] = [
    kept([-5, 0, 15, 0], [1, 4, 3, 4], [0, 0, 10, 0], [0, 1], 2),
    kept([15, 10, -5, 10], [1, 4, 3, 4], [10, 10, 0, 10], [1, 0], 2),
    kept([0, -5, 0, 15], [1, 4, 3, 4], [0, 0, 0, 10], [2, 3], 2),
    kept([10, 15, 10, -5], [1, 4, 3, 4], [10, 10, 10, 0], [3, 2], 2),
    kept([-5, 0, 5, 0], [1, 2, 1, 1], [0, 0, 5, 0], [0, OWN], 1),
    kept([0, 0, 0, 20], [0, 1, 1, 2], [0, 0, 0, 10], [OWN, 3], 1),
    // From the line of a border, beyond the window: that border is crossed at 0/1, the other one fixes t0.
    kept([-5, 0, 5, 10], [1, 2, 1, 1], [0, 5, 5, 10], [0, OWN], 1),
    kept([0, -5, 10, 5], [1, 2, 1, 1], [5, 0, 10, 5], [2, OWN], 1),
    kept([20, 10, 0, 0], [1, 2, 1, 1], [10, 5, 0, 0], [1, OWN], 1),
];

/// Through two corners of a large window, and past them so closely that only exact fractions tell which side is first.
const BY_A_HAIR: [Kept; 3] = [
    kept(
        [-16_383, -14_383, 14_383, 16_383],
        [11_383, 30_766, 23_383, 30_766],
        [-5_000, -3_000, 7_000, 9_000],
        [0, 1],
        2,
    ),
    kept(
        [-16_383, -14_383, 14_383, 16_382],
        [11_383, 30_765, 23_383, 30_766],
        [-5_000, -3_000, 7_000, 8_999],
        [2, 1],
        3,
    ),
    kept(
        [-16_383, -14_383, 14_382, 16_383],
        [11_383, 30_765, 23_383, 30_766],
        [-5_000, -3_000, 6_999, 9_000],
        [0, 3],
        3,
    ),
];

/// 32764/32765 at the left and 32765/32766 at the bottom, which an f32 does not tell apart.
const BOTTOM_BY_A_HAIR: Kept = kept(
    [-MOST, -MOST, 16_382, MOST],
    [32_765, 32_766, 1, 1],
    [16_381, 16_382, 16_382, MOST],
    [2, OWN],
    2,
);

/// 32765/32766 at the right and 32764/32765 at the top.
const TOP_BY_A_HAIR: Kept = kept(
    [-MOST, -MOST, MOST, 16_382],
    [0, 1, 32_764, 32_765],
    [-MOST, -MOST, 16_382, 16_381],
    [OWN, 3],
    2,
);

const WHOLE_TABLE: Kept = kept(
    [-MOST, -MOST, MOST, MOST],
    [1, 32_766, 32_765, 32_766],
    [1 - MOST, 1 - MOST, MOST - 1, MOST - 1],
    [0, 1],
    2,
);

const ONE_STEP_WIDE: [Kept; 5] = [
    kept([-1, -1, 2, 2], [1, 3, 2, 3], [0, 0, 1, 1], [0, 1], 2),
    kept([2, -1, -1, 2], [1, 3, 2, 3], [1, 0, 0, 1], [1, 0], 2),
    // From (0, 1/2) to a corner; from (1/3, 0) to (2/3, 1); from (0, 2/3) to (1, 1/3).
    kept([-1, 0, 3, 2], [1, 4, 1, 2], [0, 0, 1, 1], [0, 1], 2),
    kept([0, -1, 1, 2], [1, 3, 2, 3], [0, 0, 1, 1], [2, 3], 2),
    kept([-1, 1, 2, 0], [1, 3, 2, 3], [0, 1, 1, 0], [0, 1], 2),
];
