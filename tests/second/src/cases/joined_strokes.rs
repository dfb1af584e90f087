//! Fixed strokes on the square that a border parts into two strips, one list for each thing that a stroke can do there.

use super::neighbours::{Asked, Group, Neighbours};
use super::stroke_kinds::{turned, Stroke};

/// Parted at x = 5.
pub const SQUARE: Neighbours = Neighbours {
    joined: [0, 0, 10, 10],
    border: 5,
};

pub fn groups() -> Vec<Group> {
    let both_ways_round = [&CROSSING[..], &AT_ITS_ENDS, &UP_TO_IT, &ALONG].concat();
    let as_they_are = [&TOUCHING[..], &IN_ONE, &MISSED, &NO_LENGTH, &REFUSED].concat();
    let list = [both_ways(&both_ways_round), as_they_are].concat();
    asked(SQUARE, &list)
}

pub fn asked(strips: Neighbours, list: &[Stroke]) -> Vec<Group> {
    let group = |stroke: &Stroke| Group {
        strips,
        asked: Asked::Stroke(*stroke),
    };
    list.iter().map(group).collect()
}

/// Rightward and leftward.
pub fn both_ways(list: &[Stroke]) -> Vec<Stroke> {
    list.iter().flat_map(|s| [*s, turned(*s)]).collect()
}

/// More than a point of each strip is kept.
pub const CROSSING: [Stroke; 12] = [
    [-5, 5, 15, 5],
    [-1, 24, 11, -14],
    // Through two corners of the joined window, and from corner to corner.
    [-5, -5, 15, 15],
    [0, 10, 10, 0],
    // Along the bottom and along the top.
    [-5, 0, 15, 0],
    [-5, 10, 15, 10],
    // All of it is kept. The border is met at heights of 4.5, 0.5, 1.5 and 9.5, of which even numbers are made, ..
    [2, 3, 8, 6],
    [4, 0, 6, 1],
    [4, 1, 6, 2],
    [4, 10, 6, 9],
    // .. and at two thirds and at one third.
    [3, 0, 6, 1],
    [4, 0, 7, 1],
];

/// Through (5, 0) or (5, 10), or ending there: one strip keeps that point alone.
pub const AT_ITS_ENDS: [Stroke; 6] = [
    [3, -2, 8, 3],
    [7, -2, 2, 3],
    [3, 12, 8, 7],
    [8, 13, 2, 7],
    [5, 0, 10, 5],
    [2, 5, 5, 10],
];

/// Ending between the border's ends: one strip keeps that point alone.
pub const UP_TO_IT: [Stroke; 5] = [
    [2, 4, 5, 5],
    [8, 6, 5, 5],
    [-5, 5, 5, 5],
    [15, 3, 5, 4],
    [8, -3, 5, 9],
];

/// From end to end and between them, over both and over one; up to an end, and not as far.
pub const ALONG: [Stroke; 9] = [
    [5, 0, 5, 10],
    [5, 2, 5, 8],
    [5, -5, 5, 15],
    [5, -5, 5, 5],
    [5, 3, 5, 15],
    [5, -5, 5, 0],
    [5, 15, 5, 10],
    [5, -5, 5, -1],
    [5, 15, 5, 11],
];

/// One point of the joined window is kept.
pub const TOUCHING: [Stroke; 12] = [
    // An end of the border, which both strips keep, for its strokes end there.
    [3, -4, 5, 0],
    [8, -3, 5, 0],
    [5, 10, 2, 14],
    [5, 10, 9, 12],
    // A corner.
    [-5, 5, 5, -5],
    [15, 5, 5, -5],
    [5, 15, -5, 5],
    [5, 15, 15, 5],
    // A side.
    [-5, 5, 0, 5],
    [10, 5, 15, 5],
    [2, -3, 2, 0],
    [8, 10, 8, 13],
];

pub const IN_ONE: [Stroke; 10] = [
    [-1, 0, 1, 1],
    [1, 1, -1, 0],
    [2, 3, 4, 9],
    // One grid step beside the border.
    [4, 2, 4, 8],
    [6, 15, 6, -5],
    // Past an end of the border: at 11, at 10.5 and at -0.5.
    [3, 9, 9, 15],
    [4, 9, 6, 12],
    [4, 10, 6, 11],
    [6, 1, 4, -2],
    [4, -1, 6, 0],
];

pub const MISSED: [Stroke; 5] = [
    [-5, 4, 4, -5],
    [0, 12, 10, 14],
    [10, -1, 0, -1],
    [11, 3, 12, 8],
    [4, 11, 6, 11],
];

/// On the border, at its ends and beyond them; in one strip, at a corner, beside the border, outside.
pub const NO_LENGTH: [Stroke; 10] = [
    [5, 5, 5, 5],
    [5, 0, 5, 0],
    [5, 10, 5, 10],
    [5, -1, 5, -1],
    [5, 11, 5, 11],
    [2, 2, 2, 2],
    [8, 8, 8, 8],
    [10, 10, 10, 10],
    [4, 10, 4, 10],
    [11, 10, 11, 10],
];

pub const REFUSED: [Stroke; 5] = [
    [16_384, 5, 15, 5],
    [-5, -16_384, 15, 5],
    [-5, 5, i32::MIN, 5],
    [5, 5, 5, 16_384],
    [5, 5, i32::MAX, -16_384],
];
