//! Strokes that meet a side at a half, with what is kept of them worked out by hand, each also turned round:
//! a half goes to the even number, whichever end is the start. Both programs are run on their lines, and the
//! tests hold this one to the answers.

use super::line::Answered;
use super::stroke_answers::{both_ways, kept, refused, refused_list, Kept, Missed, OWN};
use super::stroke_kinds::{mirrored, turned};
use super::windows::Window;
use crate::table::MOST;

const SQUARE: Window = [0, 0, 10, 10];
const AROUND_0: Window = [-10, -10, 10, 10];
const ODD_CORNERS: Window = [1, 1, 9, 9];

pub fn lines() -> Vec<Vec<u8>> {
    answered().into_iter().map(|(line, _)| line).collect()
}

pub fn answered() -> Vec<Answered> {
    [
        both_ways(SQUARE, &MISSED, &EXAMPLES),
        both_ways([0, 0, 4, 4], &[([5, -4, -4, 0], [2, 1])], &[]),
        on_each_side(),
        both_ways(AROUND_0, &[], &OTHER_WAYS),
        both_ways(SQUARE, &[], &AT_BOTH_ENDS),
        both_ways(AROUND_0, &[], &AT_BOTH_ENDS_AROUND_0),
        both_ways(ODD_CORNERS, &[], &BY_ODD_CORNERS),
        ends_of_the_table(),
        off_the_table(),
    ]
    .concat()
}

/// E, which two renters drew, one of them backwards; A; B, which touches a corner; D and F.
const EXAMPLES: [Kept; 7] = [
    kept([-1, 0, 1, 1], [1, 2, 1, 1], [0, 0, 1, 1], [0, OWN], 1),
    kept([-5, 5, 15, 5], [1, 4, 3, 4], [0, 5, 10, 5], [0, 1], 2),
    kept([-5, 5, 5, -5], [1, 2, 1, 2], [0, 0, 0, 0], [0, 2], 2),
    kept([-1, 24, 11, -14], [7, 19, 12, 19], [3, 10, 7, 0], [3, 2], 4),
    kept(
        [10, 10, 10, 10],
        [0, 1, 1, 1],
        [10, 10, 10, 10],
        [OWN, OWN],
        0,
    ),
    // In at (0, 9.5), out at (1, 10); in at (0, 0.5), out at (1, 0).
    kept([-1, 9, 3, 11], [1, 4, 1, 2], [0, 10, 1, 10], [0, 3], 2),
    kept([-1, 1, 3, -1], [1, 4, 1, 2], [0, 0, 1, 0], [0, 2], 2),
];

const MISSED: [Missed; 5] = [
    // C, G, and one that gains a bit.
    ([-5, 4, 4, -5], [1, 1]),
    ([11, 10, 11, 10], [0, 0]),
    ([5, 20, 40, 5], [1, 1]),
    // Past (0, 10.5) and (0, -0.5): their nearest even points are corners, and still nothing is kept.
    ([-1, 10, 1, 11], [1, 1]),
    ([-1, 0, 1, -1], [1, 1]),
];

/// The whole number below a half, and the one that it goes to.
const HALVES: [[i32; 2]; 8] = [
    [0, 0],
    [1, 2],
    [2, 2],
    [3, 4],
    [-1, 0],
    [-2, -2],
    [-3, -2],
    [-4, -4],
];

/// Each half on each side, on strokes that rise and on strokes that fall.
fn on_each_side() -> Vec<Answered> {
    let mut list = Vec::new();
    for (k, [below, even]) in HALVES.into_iter().enumerate() {
        let (rise, fall) = ([below, below + 1], [below + 1, below]);
        let [a, b] = if k / 2 % 2 == 0 {
            [rise, fall]
        } else {
            [fall, rise]
        };
        list.extend([
            inward([-11, -10, -9], a, even),
            inward([11, 10, 9], b, even),
            inward([-11, -10, -9], b, even).mirrored(),
            inward([11, 10, 9], a, even).mirrored(),
        ]);
    }
    both_ways(AROUND_0, &[], &list)
}

/// From outside a side to as far inside, so that the side is met in the middle.
fn inward([outside, side, inside]: [i32; 3], [from, to]: [i32; 2], even: i32) -> Kept {
    let points = [side, even, inside, to];
    let named = if outside < side { 0 } else { 1 };
    let sides = [named, OWN];
    kept([outside, from, inside, to], [1, 2, 1, 1], points, sides, 1)
}

/// The parity of the coordinate counts, not that of the way from the start.
const OTHER_WAYS: [Kept; 14] = [
    // Starts at an odd number, ways of 1.5 and 2.5: to 2.5 and 3.5, to 6.5 and 7.5.
    kept([-13, 1, -9, 3], [3, 4, 1, 1], [-10, 2, -9, 3], [0, OWN], 1),
    kept([-15, 1, -9, 4], [5, 6, 1, 1], [-10, 4, -9, 4], [0, OWN], 1),
    kept([15, 9, 9, 6], [5, 6, 1, 1], [10, 6, 9, 6], [1, OWN], 1),
    kept([13, 9, 9, 7], [3, 4, 1, 1], [10, 8, 9, 7], [1, OWN], 1),
    // The same in x: to -5.5 and -4.5, either way.
    kept(
        [-7, -13, -5, -9],
        [3, 4, 1, 1],
        [-6, -10, -5, -9],
        [2, OWN],
        1,
    ),
    kept(
        [-7, -15, -4, -9],
        [5, 6, 1, 1],
        [-4, -10, -4, -9],
        [2, OWN],
        1,
    ),
    kept([-3, 15, -6, 9], [5, 6, 1, 1], [-6, 10, -6, 9], [3, OWN], 1),
    kept([-3, 13, -5, 9], [3, 4, 1, 1], [-4, 10, -5, 9], [3, OWN], 1),
    // Starts at an even number: to 4.5 and 6.5, to -5.5 and -6.5.
    kept([-15, 2, -9, 5], [5, 6, 1, 1], [-10, 4, -9, 5], [0, OWN], 1),
    kept([13, 8, 9, 6], [3, 4, 1, 1], [10, 6, 9, 6], [1, OWN], 1),
    kept(
        [-8, -15, -5, -9],
        [5, 6, 1, 1],
        [-6, -10, -5, -9],
        [2, OWN],
        1,
    ),
    kept([-8, 13, -6, 9], [3, 4, 1, 1], [-6, 10, -6, 9], [3, OWN], 1),
    // Past 0: from -1 to 0.5, from 1 to -0.5.
    kept([-13, -1, -9, 1], [3, 4, 1, 1], [-10, 0, -9, 1], [0, OWN], 1),
    kept([13, 1, 9, -1], [3, 4, 1, 1], [10, 0, 9, -1], [1, OWN], 1),
];

const AT_BOTH_ENDS: [Kept; 6] = [
    // y: 0.5 and 5.5, 1.5 and 6.5, 3.5 and 8.5, 6.5 and 1.5.
    kept([-1, 0, 11, 6], [1, 12, 11, 12], [0, 0, 10, 6], [0, 1], 2),
    kept([-1, 1, 11, 7], [1, 12, 11, 12], [0, 2, 10, 6], [0, 1], 2),
    kept([11, 3, -1, 9], [1, 12, 11, 12], [10, 4, 0, 8], [1, 0], 2),
    kept([-1, 7, 11, 1], [1, 12, 11, 12], [0, 6, 10, 2], [0, 1], 2),
    // x: 3.5 and 4.5, 6.5 and 3.5.
    kept([3, -5, 5, 15], [1, 4, 3, 4], [4, 0, 4, 10], [2, 3], 2),
    kept([8, -5, 2, 15], [1, 4, 3, 4], [6, 0, 4, 10], [2, 3], 2),
];

const AT_BOTH_ENDS_AROUND_0: [Kept; 4] = [
    // y: -2.5 and 7.5. x: 4.5 and -5.5, -3.5 and -4.5, 0.5 and -0.5.
    kept(
        [-11, -3, 11, 8],
        [1, 22, 21, 22],
        [-10, -2, 10, 8],
        [0, 1],
        2,
    ),
    kept(
        [5, -11, -6, 11],
        [1, 22, 21, 22],
        [4, -10, -6, 10],
        [2, 3],
        2,
    ),
    kept(
        [-3, -20, -5, 20],
        [1, 4, 3, 4],
        [-4, -10, -4, 10],
        [2, 3],
        2,
    ),
    kept([1, 20, -1, -20], [1, 4, 3, 4], [0, 10, 0, -10], [3, 2], 2),
];

const BY_ODD_CORNERS: [Kept; 5] = [
    // A touch; the halves nearest to a corner, 1.5 and 8.5, which go away from it.
    kept([8, 10, 10, 8], [1, 2, 1, 2], [9, 9, 9, 9], [3, 1], 2),
    kept([0, 1, 2, 2], [1, 2, 1, 1], [1, 2, 2, 2], [0, OWN], 1),
    kept([0, 9, 2, 8], [1, 2, 1, 1], [1, 8, 2, 8], [0, OWN], 1),
    // In at 8.5, out by the other side of the same corner.
    kept([0, 8, 4, 10], [1, 4, 1, 2], [1, 8, 2, 9], [0, 3], 2),
    kept([10, 8, 6, 10], [1, 4, 1, 2], [9, 8, 8, 9], [1, 3], 2),
];

/// y near the table's ends: on sides one step from them, and on the way through the whole table. The same in x.
fn ends_of_the_table() -> Vec<Answered> {
    let (right, left) = ([16_383, 16_382, 16_381], [-16_383, -16_382, -16_381]);
    let whole_way = [1, 32_766, 32_765, 32_766];
    let by_the_ends = [
        // 16382.5 falling and rising, 16381.5; -16382.5 and -16381.5.
        inward(right, [16_383, 16_382], 16_382),
        inward(right, [16_382, 16_383], 16_382),
        inward(right, [16_381, 16_382], 16_382),
        inward(left, [-16_383, -16_382], -16_382),
        inward(left, [-16_381, -16_382], -16_382),
        // 16382.5 and 0.5; -16382.5 and -0.5.
        kept(
            [-MOST, MOST, MOST, 0],
            whole_way,
            [-16_382, 16_382, 16_382, 0],
            [0, 1],
            2,
        ),
        kept(
            [-MOST, -MOST, MOST, 0],
            whole_way,
            [-16_382, -16_382, 16_382, 0],
            [0, 1],
            2,
        ),
    ];
    let far = [-MOST, 0, MOST];
    let from_far = [
        // 16382.5, -16382.5, -0.5, 0.5.
        inward(far, [16_383, 16_382], 16_382),
        inward(far, [-16_382, -16_383], -16_382),
        inward(far, [-16_383, 16_382], 0),
        inward(far, [16_383, -16_382], 0),
    ];
    let mut cases = Vec::new();
    for (window, list) in [
        ([-16_382, -MOST, 16_382, MOST], &by_the_ends[..]),
        ([0, -MOST, MOST, MOST], &from_far[..]),
    ] {
        cases.extend(both_ways(window, &[], list));
        let in_x: Vec<Kept> = list.iter().map(Kept::mirrored).collect();
        cases.extend(both_ways(mirrored(window), &[], &in_x));
    }
    cases
}

/// Turned round, the first number off the table has another place.
fn off_the_table() -> Vec<Answered> {
    let off = MOST + 1;
    let strokes = [
        ([off, 0, 1, 1], [0, 2]),
        ([-1, -off, 1, 1], [1, 3]),
        ([-1, 0, off, 1], [2, 0]),
        ([-1, 0, 1, -off], [3, 1]),
        ([off, 0, 1, -off], [0, 1]),
        ([-1, off, off, 1], [1, 0]),
    ];
    let mut cases = Vec::new();
    for (stroke, places) in strokes {
        cases.extend(refused(SQUARE, stroke, places));
    }
    let (stroke, [forth, back]) = strokes[4];
    let good = EXAMPLES[0].stroke;
    cases.extend(refused_list(SQUARE, good, stroke, forth));
    cases.extend(refused_list(SQUARE, turned(good), turned(stroke), back));
    cases
}
