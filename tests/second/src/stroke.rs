//! A stroke and its points: t runs from 0 at the start to 1 at the end.

use crate::fraction::Fraction;
use crate::point::Point;
use crate::rectangle::Rectangle;

#[derive(Clone, Copy, Debug)]
pub struct Stroke {
    pub x1: i128,
    pub y1: i128,
    pub dx: i128,
    pub dy: i128,
}

impl Stroke {
    pub fn of(numbers: [i32; 4]) -> Stroke {
        let [x1, y1, x2, y2] = numbers.map(i128::from);
        Stroke {
            x1,
            y1,
            dx: x2 - x1,
            dy: y2 - y1,
        }
    }

    pub fn at(&self, t: Fraction) -> Point {
        Point {
            x: Fraction::whole(self.x1) + Fraction::whole(self.dx) * t,
            y: Fraction::whole(self.y1) + Fraction::whole(self.dy) * t,
        }
    }

    /// Where its line has this x; none if it runs upright.
    pub fn where_x(&self, x: i128) -> Option<Fraction> {
        (self.dx != 0).then(|| Fraction::new(x - self.x1, self.dx))
    }

    /// Where its line has this y; none if it runs level.
    pub fn where_y(&self, y: i128) -> Option<Fraction> {
        (self.dy != 0).then(|| Fraction::new(y - self.y1, self.dy))
    }

    /// Where its line meets that of a side: 0 left, 1 right, 2 bottom, 3 top; none if it runs along it or beside it.
    pub fn where_side(&self, window: &Rectangle, side: usize) -> Option<Fraction> {
        match side {
            0 => self.where_x(window.left),
            1 => self.where_x(window.right),
            2 => self.where_y(window.bottom),
            _ => self.where_y(window.top),
        }
    }
}
