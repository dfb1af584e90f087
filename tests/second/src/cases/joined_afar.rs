//! Fixed strokes on neighbouring strips at the limits: the whole table, strips one grid step wide, and past the border's ends by
//! a hair.

use super::joined_strokes::asked;
use super::neighbours::{Group, Neighbours};
use super::stroke_kinds::Stroke;
use super::windows::Window;
use crate::table::MOST;

pub const WHOLE_TABLE: Window = [-MOST, -MOST, MOST, MOST];

pub fn groups() -> Vec<Group> {
    lists()
        .into_iter()
        .flat_map(|(strips, list)| asked(strips, list))
        .collect()
}

/// Strips and their strokes.
pub fn lists() -> [(Neighbours, &'static [Stroke]); 6] {
    let parted = |joined: Window, border: i32| Neighbours { joined, border };
    [
        (parted(WHOLE_TABLE, 0), &IN_THE_MIDDLE),
        (parted(WHOLE_TABLE, 1 - MOST), &AT_THE_LEFT_END),
        (parted(WHOLE_TABLE, MOST - 1), &AT_THE_RIGHT_END),
        (parted([0, 0, 2, 1], 1), &ONE_STEP_WIDE),
        (parted([16_381, 16_382, MOST, MOST], 16_382), &AT_A_CORNER),
        (parted([-10, 0, 10, 10], 0), &BY_A_HAIR),
    ]
}

const IN_THE_MIDDLE: [Stroke; 9] = [
    [-MOST, -MOST, MOST, MOST],
    [MOST, -MOST, -MOST, MOST],
    // Heights at the border of 0.5, 16382.5 and -16382.5.
    [-MOST, 0, MOST, 1],
    [MOST, 16_382, -MOST, 16_383],
    [-MOST, -16_382, MOST, -16_383],
    // All along it, from its upper end, to its lower end, and there.
    [0, -MOST, 0, MOST],
    [0, MOST, MOST, MOST],
    [-MOST, -MOST, 0, -MOST],
    [0, MOST, 0, MOST],
];

/// The left strip is one grid step wide.
const AT_THE_LEFT_END: [Stroke; 4] = [
    [-MOST, -MOST, MOST, MOST],
    [MOST, MOST, -MOST, 16_382],
    [-MOST, 5, -MOST, -5],
    [1 - MOST, 3, -MOST, 4],
];

/// The right strip is.
const AT_THE_RIGHT_END: [Stroke; 3] = [
    [16_381, 16_382, MOST, MOST],
    [MOST, -MOST, 16_382, MOST],
    [16_382, MOST, 16_382, -MOST],
];

/// Both are.
const ONE_STEP_WIDE: [Stroke; 9] = [
    // At a half, either way.
    [0, 0, 2, 1],
    [2, 0, 0, 1],
    [-1, 1, 3, 0],
    // By the border's upper end, (1, 1).
    [-1, -1, 2, 2],
    [3, -1, -1, 3],
    [0, 2, 1, 1],
    // To the upper left corner only; along the border; on its lower end.
    [0, 1, 2, 2],
    [1, -1, 1, 2],
    [1, 0, 1, 0],
];

/// Both are, at the corner of the table. By the border's lower end, at a half, along the border, up to its lower end.
const AT_A_CORNER: [Stroke; 4] = [
    [-MOST, -MOST, MOST, MOST],
    [MOST, 16_382, 16_381, MOST],
    [16_382, -MOST, 16_382, MOST],
    [16_381, 16_381, 16_382, 16_382],
];

/// Through the border's lower end (0, 0), above it so that both strips keep something, and below it.
const BY_A_HAIR: [Stroke; 6] = [
    [-16_383, 16_383, 16_383, -16_383],
    [-16_383, 16_382, 16_382, -16_381],
    [-16_382, 16_381, 16_383, -16_382],
    [16_383, -1, -16_383, 1],
    [16_383, -1, -16_382, 1],
    [16_382, -1, -16_383, 1],
];
