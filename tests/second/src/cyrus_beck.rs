//! A stroke against a convex corner window: one half-plane an edge.

use crate::convex;
use crate::fraction::Fraction;
use crate::kept::{self, Bound, Sides};
use crate::point::{corners, turn};
use crate::refusal::{at, first, when, Refusal};
use crate::stroke::Stroke;
use crate::table;

/// Length and count come before the range, the shape and the stroke after it.
pub fn taken(window: &[i32], stroke: [i32; 4]) -> Result<(), Refusal> {
    let odd_or_count = window.len() % 2 == 1 || !(3..=16).contains(&(window.len() / 2));
    first(&[
        when(odd_or_count, 3),
        at(table::first_off(window), 2),
        when(!convex::strictly(&corners(window)), 3),
        at(table::first_off(&stroke), 6),
    ])
}

pub fn clip(window: &[i32], stroke: [i32; 4]) -> Option<(Fraction, Fraction)> {
    let count = window.len() / 2;
    let corner = |k: usize| [window[2 * (k % count)], window[2 * (k % count) + 1]];
    let bounds: Vec<Bound> = (0..count)
        .map(|k| left_of(corner(k), corner(k + 1), Stroke::of(stroke)))
        .collect();
    kept::ends(&bounds)
}

/// The edge that fixed each end of what is kept, by the number of its first corner: the lowest that has this end on its
/// line and the stroke's own end beyond it. An own end that is kept lies beyond no edge, so that it names none.
pub fn sides(window: &[i32], stroke: [i32; 4], (t0, t1): (Fraction, Fraction)) -> Sides {
    let (corners, stroke) = (corners(window), Stroke::of(stroke));
    let count = corners.len();
    [(Fraction::ZERO, t0), (Fraction::ONE, t1)].map(|(own, t)| {
        let side_of = |k: usize, t| turn(corners[k], corners[(k + 1) % count], stroke.at(t));
        (0..count).find(|k| side_of(*k, t) == 0 && side_of(*k, own) < 0)
    })
}

/// Left of or on the edge from a to b: edge x (start - a) + t (edge x step) >= 0.
fn left_of(a: [i32; 2], b: [i32; 2], stroke: Stroke) -> Bound {
    let edge = Stroke::of([a[0], a[1], b[0], b[1]]);
    let cross = |x: i128, y: i128| edge.dx * y - edge.dy * x;
    Bound {
        p: -cross(stroke.dx, stroke.dy),
        q: cross(stroke.x1 - edge.x1, stroke.y1 - edge.y1),
    }
}
