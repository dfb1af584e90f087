//! The strictly convex ring around points: counterclockwise from the lowest, of those the leftmost.

use crate::point::{turn, Point};

/// Fewer than 3 corners exactly if the points have no area between them.
pub fn ring(mut points: Vec<Point>) -> Vec<Point> {
    points.sort_by_key(|point| (point.y, point.x));
    points.dedup();
    let mut up = chain(points.iter());
    let mut down = chain(points.iter().rev());
    if points.len() > 1 {
        // Each chain ends where the other begins.
        up.pop();
        down.pop();
        up.append(&mut down);
    }
    up
}

/// One flank: only strict left turns stay, so no point in the middle of an edge does.
fn chain<'a>(points: impl Iterator<Item = &'a Point>) -> Vec<Point> {
    let mut flank: Vec<Point> = Vec::new();
    for point in points {
        while let [.., a, b] = flank[..] {
            if turn(a, b, *point) > 0 {
                break;
            }
            flank.pop();
        }
        flank.push(*point);
    }
    flank
}
