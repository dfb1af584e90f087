//! Strokes aimed at the edge of a corner window that fixes each end: first such as are worked out by hand, each also
//! turned round, then strokes by chosen corners of windows of every count.

use super::corner_windows::of;
use super::line::Answered;
use super::shapes::Corner;
use super::stroke_answers::{text, OWN};
use super::stroke_kinds::{turned, Stroke};

/// A stroke of which something is kept: its fractions, and the edges that fixed them.
type Kept = (Stroke, [i32; 4], [i32; 2]);

pub fn lines() -> Vec<Vec<u8>> {
    let by_hand = answered().into_iter().map(|(line, _)| line);
    by_hand
        .chain((3..=16).flat_map(by_chosen_corners))
        .collect()
}

pub fn answered() -> Vec<Answered> {
    [
        both_ways(&SQUARE, &MISSED, &BY_SQUARE),
        both_ways(&TRIANGLE, &[], &BY_TRIANGLE),
        both_ways(&HEXAGON, &[], &BY_HEXAGON),
        both_ways(&parabola(16).concat(), &[], &BY_PARABOLA),
        both_ways(&FLAT_AT_1.concat(), &[], &by_a_hair([1, 0])),
        both_ways(&FLAT_AT_0.concat(), &[], &by_a_hair([0, 3])),
    ]
    .concat()
}

fn both_ways(window: &[i32], missed: &[Stroke], kept: &[Kept]) -> Vec<Answered> {
    let mut cases = Vec::new();
    for stroke in missed.iter().flat_map(|stroke| [*stroke, turned(*stroke)]) {
        let answer = [0, 0, 0, 0, 1, 0, 1, OWN, OWN];
        cases.push((of(window, stroke), text(&answer)));
    }
    for (stroke, [n0, d0, n1, d1], [first, last]) in kept {
        let forth = [0, 0, 1, *n0, *d0, *n1, *d1, *first, *last];
        let back = [0, 0, 1, d1 - n1, *d1, d0 - n0, *d0, *last, *first];
        cases.push((of(window, *stroke), text(&forth)));
        cases.push((of(window, turned(*stroke)), text(&back)));
    }
    cases
}

/// Edge 0 is the bottom, 1 the right side, 2 the top, 3 the left side.
const SQUARE: [i32; 8] = [0, 0, 10, 0, 10, 10, 0, 10];

/// Past a corner, to before an edge, of no length.
const MISSED: [Stroke; 3] = [[-5, 4, 4, -5], [-5, 5, -1, 5], [11, 10, 11, 10]];

const BY_SQUARE: [Kept; 24] = [
    // Through each corner; at corner 0 the closing edge 3 gives way to edge 0.
    ([-5, -5, 5, 5], [1, 2, 1, 1], [0, OWN]),
    ([15, -5, 5, 5], [1, 2, 1, 1], [0, OWN]),
    ([15, 15, 5, 5], [1, 2, 1, 1], [1, OWN]),
    ([-5, 15, 5, 5], [1, 2, 1, 1], [2, OWN]),
    ([-5, -5, 15, 15], [1, 4, 3, 4], [0, 1]),
    ([15, -5, -5, 15], [1, 4, 3, 4], [0, 2]),
    // Touches: inward by the one edge, outward by the other.
    ([-5, 5, 5, -5], [1, 2, 1, 2], [3, 0]),
    ([15, 5, 5, -5], [1, 2, 1, 2], [1, 0]),
    ([15, 5, 5, 15], [1, 2, 1, 2], [1, 2]),
    ([-5, 5, 5, 15], [1, 2, 1, 2], [3, 2]),
    // To corner 0: by both edges, by one, along each.
    ([-5, -5, 0, 0], [1, 1, 1, 1], [0, OWN]),
    ([-7, 3, 0, 0], [1, 1, 1, 1], [3, OWN]),
    ([3, -7, 0, 0], [1, 1, 1, 1], [0, OWN]),
    ([-5, 0, 0, 0], [1, 1, 1, 1], [3, OWN]),
    ([0, -5, 0, 0], [1, 1, 1, 1], [0, OWN]),
    // To the middle of the closing edge, and from there through the window.
    ([-5, 5, 0, 5], [1, 1, 1, 1], [3, OWN]),
    ([0, 5, 20, 5], [0, 1, 1, 2], [OWN, 1]),
    // From corner 0 through the opposite one.
    ([0, 0, 20, 20], [0, 1, 1, 2], [OWN, 1]),
    // Along two edges, beyond both of their ends.
    ([-5, 0, 15, 0], [1, 4, 3, 4], [3, 1]),
    ([0, -5, 0, 15], [1, 4, 3, 4], [0, 2]),
    // Nothing is cut off.
    ([0, 0, 10, 0], [0, 1, 1, 1], [OWN, OWN]),
    ([0, 0, 10, 10], [0, 1, 1, 1], [OWN, OWN]),
    ([0, 0, 0, 0], [0, 1, 1, 1], [OWN, OWN]),
    ([5, 5, 5, 5], [0, 1, 1, 1], [OWN, OWN]),
];

/// Edge 0 is the bottom, 1 lies on x + y = 12, 2 is the left side.
const TRIANGLE: [i32; 6] = [0, 0, 12, 0, 0, 12];

const BY_TRIANGLE: [Kept; 8] = [
    ([-4, -4, 8, 8], [1, 3, 5, 6], [0, 1]),
    ([16, -2, 8, 2], [1, 2, 1, 1], [0, OWN]),
    ([-2, 16, 2, 8], [1, 2, 1, 1], [1, OWN]),
    ([12, -4, 12, 4], [1, 2, 1, 2], [0, 1]),
    ([-4, 12, 4, 12], [1, 2, 1, 2], [2, 1]),
    // Along the slanting edge, and from its end along its line.
    ([16, -4, -4, 16], [1, 5, 4, 5], [0, 2]),
    ([12, 0, 16, -4], [0, 1, 0, 1], [OWN, 0]),
    ([10, 10, 6, 6], [1, 1, 1, 1], [1, OWN]),
];

/// The sources' hexagon, counterclockwise; edge 5 lies on x + y = 1.
const HEXAGON: [i32; 12] = [1, 0, 2, 0, 2, 3, 1, 3, 0, 2, 0, 1];

const BY_HEXAGON: [Kept; 5] = [
    // Through corner 0 to edge 1, and out by it.
    ([0, -2, 2, 2], [1, 2, 1, 1], [0, OWN]),
    ([0, -2, 3, 4], [1, 3, 2, 3], [0, 1]),
    // Along edge 0; a touch at its first corner; through corner 5.
    ([0, 0, 2, 0], [1, 2, 1, 1], [5, OWN]),
    ([3, -1, -1, 1], [1, 2, 1, 2], [0, 5]),
    ([-1, 0, 1, 2], [1, 2, 1, 1], [4, OWN]),
];

/// Of 16 corners, from (-8, 64) to (7, 49); the closing edge lies on x + y = 56.
const BY_PARABOLA: [Kept; 5] = [
    // Through the first corner, through the last.
    ([-9, 66, -7, 62], [1, 2, 1, 1], [0, OWN]),
    ([8, 49, 6, 49], [1, 2, 1, 1], [14, OWN]),
    // Through (0, 0) upright, past it level.
    ([0, -1, 0, 1], [1, 2, 1, 1], [7, OWN]),
    ([-1, 0, 1, 0], [1, 2, 1, 2], [7, 8]),
    // In at (-5, 25), which is corner 3, out at (5, 25), which is corner 13.
    ([-20, 25, 20, 25], [3, 8, 5, 8], [2, 12]),
];

/// At (0, 0) the two edges lie almost on one line, which makes the fractions of a stroke that passes close by so much
/// alike that not even an f64 tells them apart.
const FLAT_AT_1: [Corner; 4] = [
    [-16_383, 16_382],
    [0, 0],
    [16_382, -16_381],
    [16_383, 16_383],
];
const FLAT_AT_0: [Corner; 4] = [
    [0, 0],
    [16_382, -16_381],
    [16_383, 16_383],
    [-16_383, 16_382],
];

/// By (0, 0) on the one side and on the other, with the edge that is met last; the fractions were reckoned apart from this program.
fn by_a_hair([one, other]: [i32; 2]) -> [Kept; 2] {
    [
        (
            [-16_383, -16_382, 16_382, 16_381],
            [536_739_847, 1_073_446_931, 1, 1],
            [one, OWN],
        ),
        (
            [-16_383, -16_382, 1, 1],
            [536_772_612, 536_805_377, 1, 1],
            [other, OWN],
        ),
    ]
}

/// Corners on y = x x, from left to right.
fn parabola(count: i32) -> Vec<Corner> {
    let first = -(count / 2);
    (first..first + count).map(|x| [x, x * x]).collect()
}

/// By the first corner, by the last and by one between: through it and another one, to it, and past it by a touch.
fn by_chosen_corners(count: i32) -> Vec<Vec<u8>> {
    let corners = parabola(count);
    let at = |k: usize| corners[k % corners.len()];
    let mut lines = Vec::new();
    for k in [0, corners.len() - 1, corners.len() / 2] {
        let (here, other) = (at(k), at(k + corners.len() / 2));
        let (before, after) = (at(k + corners.len() - 1), at(k + 1));
        let before_it = beyond(here, other, here, -1);
        let strokes = [
            [before_it, beyond(here, other, here, 2)],
            [before_it, here],
            [-1, 1].map(|times| beyond(before, after, here, times)),
        ];
        lines.extend(strokes.map(|[a, b]| of(&corners.concat(), [a[0], a[1], b[0], b[1]])));
    }
    lines
}

/// So many times the way from one corner to another, from `here` on.
fn beyond(from: Corner, to: Corner, here: Corner, times: i32) -> Corner {
    [0, 1].map(|axis| here[axis] + times * (to[axis] - from[axis]))
}
