//! A point with exact coordinates, and which way three of them turn.

use crate::fraction::Fraction;

#[derive(Clone, Copy, Debug, PartialEq, Eq)]
pub struct Point {
    pub x: Fraction,
    pub y: Fraction,
}

impl Point {
    pub fn whole(x: i128, y: i128) -> Point {
        Point {
            x: Fraction::whole(x),
            y: Fraction::whole(y),
        }
    }

    /// (X, Y, W) with x = X / W, y = Y / W and W positive: whole numbers, so a turn needs no reducing.
    fn scaled(self) -> (i128, i128, i128) {
        let scale = self.x.den * self.y.den;
        (self.x.num * self.y.den, self.y.num * self.x.den, scale)
    }
}

/// Positive where c lies to the left of the way from a to b, 0 where on its line: a determinant.
pub fn turn(a: Point, b: Point, c: Point) -> i128 {
    let (ax, ay, aw) = a.scaled();
    let (bx, by, bw) = b.scaled();
    let (cx, cy, cw) = c.scaled();
    let of_x = ax * (by * cw - bw * cy);
    let of_y = ay * (bx * cw - bw * cx);
    let of_w = aw * (bx * cy - by * cx);
    (of_x - of_y + of_w).signum()
}

/// The corners x y of a list of numbers; a last number without a mate is left out.
pub fn corners(numbers: &[i32]) -> Vec<Point> {
    let pair = |c: &[i32]| Point::whole(c[0].into(), c[1].into());
    numbers.chunks_exact(2).map(pair).collect()
}
