//! The worked examples of the rules and the vectors of the sources, the same for every seed.

use super::{batches, by_hand, corner_windows, drawings, outlines, strokes};
use crate::batch::Touches;

pub fn lines() -> Vec<Vec<u8>> {
    [
        of_strokes(),
        of_outlines(),
        of_drawing(),
        by_hand::lines(),
        of_sources(),
    ]
    .concat()
}

/// A to G and the text's own stroke that gains a bit, by every rule.
fn of_strokes() -> Vec<Vec<u8>> {
    let window = [0, 0, 10, 10];
    let square = [0, 0, 10, 0, 10, 10, 0, 10];
    let strokes = [
        [-5, 5, 15, 5],
        [-5, 5, 5, -5],
        [-5, 4, 4, -5],
        [-1, 24, 11, -14],
        [-1, 0, 1, 1],
        [10, 10, 10, 10],
        [11, 10, 11, 10],
        [5, 20, 40, 5],
    ];
    let mut lines = Vec::new();
    for stroke in strokes {
        lines.push(strokes::of("lb", window, stroke));
        lines.push(strokes::of("cs", window, stroke));
        lines.push(corner_windows::of(&square, stroke));
    }
    // A, B, D, E and F are kept; B only touches.
    lines.push(batches::of(Touches::LeftOut, 21, window, &strokes.concat()));
    lines.push(batches::of(Touches::Given, 26, window, &strokes.concat()));
    lines
}

/// H to L in all orders, with one number more than needed.
fn of_outlines() -> Vec<Vec<u8>> {
    let shapes: [(usize, &[i32]); 5] = [
        (33, &[5, -2, 12, 5, 5, 12, -2, 5]),
        (13, &[-1, 0, 2, 1, -1, 2]),
        (17, &[-5, 0, 15, 0, 5, 20]),
        (1, &[-4, 0, 0, 2, -4, 4]),
        (21, &[0, 3, -2, -3, 3, 1, -3, 1, 2, -3]),
    ];
    let mut lines = Vec::new();
    for (room, corners) in shapes {
        for order in 0..=25 {
            lines.push(outlines::of(order, room, [0, 0, 10, 10], corners));
        }
    }
    lines
}

fn of_drawing() -> Vec<Vec<u8>> {
    [8, 9, 7, 0]
        .map(|room| drawings::of(room, &drawings::example()))
        .to_vec()
}

fn of_sources() -> Vec<Vec<u8>> {
    let mut lines = Vec::new();
    let strokes = [
        ([5, 5, 10, 10], [4, 6, 6, 4]),
        // Codes 1001 and 1010 share a bit.
        ([0, 0, 10, 10], [-1, 11, 11, 11]),
        ([0, 0, 3, 4], [-2, -2, 1, 5]),
        ([0, 0, 3, 4], [-2, -2, 3, 0]),
        ([0, 0, 3, 4], [-2, 0, 1, 0]),
        ([0, 0, 3, 4], [-2, -2, 0, 0]),
        ([0, 0, 4, 4], [5, -4, -4, 0]),
        ([0, 0, 4, 4], [5, 0, -4, -4]),
    ];
    for (window, stroke) in strokes {
        lines.push(strokes::of("lb", window, stroke));
        lines.push(strokes::of("cs", window, stroke));
    }
    lines
}
