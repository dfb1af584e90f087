//! Sutherland-Hodgman in its own words, pass after pass, to hold the common shape's hull against.

use crate::fraction::Fraction;
use crate::point::Point;

/// All arrangements of the four sides in dictionary order.
pub fn orders() -> Vec<[usize; 4]> {
    let digits = |k: usize| [k / 64, k / 16 % 4, k / 4 % 4, k % 4];
    let each_once = |order: &[usize; 4]| (0..4).all(|side| order.contains(&side));
    (0..256).map(digits).filter(each_once).collect()
}

pub fn ring(window: [i32; 4], corners: &[Point], order: [usize; 4]) -> Vec<Point> {
    let mut ring = corners.to_vec();
    for side in order {
        ring = pass(&ring, |point| depth(window, side, point));
        if ring.len() < 3 {
            return Vec::new();
        }
    }
    let lowest = (0..ring.len()).min_by_key(|k| (ring[*k].y, ring[*k].x));
    ring.rotate_left(lowest.unwrap_or(0));
    ring
}

/// How far inside a side a point lies; 0 on its line.
fn depth(window: [i32; 4], side: usize, point: Point) -> Fraction {
    let [left, bottom, right, top] = window.map(|n| Fraction::whole(n.into()));
    match side {
        0 => point.x - left,
        1 => right - point.x,
        2 => point.y - bottom,
        _ => top - point.y,
    }
}

fn pass(ring: &[Point], depth: impl Fn(Point) -> Fraction) -> Vec<Point> {
    let mut next = Vec::new();
    for (k, here) in ring.iter().enumerate() {
        let there = ring[(k + 1) % ring.len()];
        let (a, b) = (depth(*here), depth(there));
        if a >= Fraction::ZERO {
            next.push(*here);
        }
        if a * b < Fraction::ZERO {
            next.push(crossing(*here, there, a, b));
        }
    }
    next
}

fn crossing(here: Point, there: Point, a: Fraction, b: Fraction) -> Point {
    let gap = a - b;
    let t = Fraction::new(a.num * gap.den, a.den * gap.num);
    Point {
        x: here.x + (there.x - here.x) * t,
        y: here.y + (there.y - here.y) * t,
    }
}
