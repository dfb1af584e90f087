//! The Cohen-Sutherland rule, run in its own words on exact points.

use crate::fraction::Fraction;
use crate::kept::Sides;
use crate::point::Point;
use crate::rectangle::Rectangle;
use crate::stroke::Stroke;

#[derive(Clone, Copy, Debug)]
pub struct Run {
    pub kept: bool,
    pub shortenings: u8,
    /// Of each end the side of its last shortening; none of a missed stroke.
    pub sides: Sides,
    // The tests hold the two ends against the kept t of the definition.
    #[cfg_attr(not(test), allow(dead_code))]
    pub ends: [Point; 2],
}

pub fn run(window: [i32; 4], stroke: [i32; 4]) -> Run {
    let (window, stroke) = (Rectangle::of(window), Stroke::of(stroke));
    let mut ends = [stroke.at(Fraction::ZERO), stroke.at(Fraction::ONE)];
    let mut shortenings = 0;
    let mut sides = [None; 2];
    loop {
        let [a, b] = ends.map(|end| window.code(end));
        if a | b == 0 || a & b != 0 {
            let kept = a | b == 0;
            return Run {
                kept,
                shortenings,
                sides: if kept { sides } else { [None; 2] },
                ends,
            };
        }
        // The start while its code is not 0, then the end.
        let which = if a != 0 { 0 } else { 1 };
        let side = [a, b][which].trailing_zeros() as usize;
        ends[which] = on_side(&window, stroke, side);
        sides[which] = Some(side);
        shortenings += 1;
    }
}

/// The stroke's exact point on the line of a side; the other end lies across it, so there is one.
fn on_side(window: &Rectangle, stroke: Stroke, side: usize) -> Point {
    let t = stroke.where_side(window, side);
    stroke.at(t.expect("the two ends lie on both sides of the line"))
}
