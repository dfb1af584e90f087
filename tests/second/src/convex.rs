//! Strict convexity by its definition, over every pair of an edge and another corner.

use crate::point::{turn, Point};

/// Corners count by their place in the list, so a repeated point fails.
pub fn strictly(corners: &[Point]) -> bool {
    let count = corners.len();
    (0..count).all(|from| {
        let to = (from + 1) % count;
        let others = (0..count).filter(|k| *k != from && *k != to);
        others
            .map(|k| turn(corners[from], corners[to], corners[k]))
            .all(|side| side > 0)
    })
}

/// Left of or on every edge.
pub fn holds(corners: &[Point], point: Point) -> bool {
    let count = corners.len();
    (0..count).all(|k| turn(corners[k], corners[(k + 1) % count], point) >= 0)
}
