//! A rectangle window: left, bottom, right, top.

use crate::fraction::Fraction;
use crate::point::Point;
use crate::refusal::{at, when, Refusal};
use crate::table;

#[derive(Clone, Copy, Debug)]
pub struct Rectangle {
    pub left: i128,
    pub bottom: i128,
    pub right: i128,
    pub top: i128,
}

impl Rectangle {
    pub fn of(numbers: [i32; 4]) -> Rectangle {
        let [left, bottom, right, top] = numbers.map(i128::from);
        Rectangle {
            left,
            bottom,
            right,
            top,
        }
    }

    pub fn corners(&self) -> [Point; 4] {
        [
            Point::whole(self.left, self.bottom),
            Point::whole(self.right, self.bottom),
            Point::whole(self.right, self.top),
            Point::whole(self.left, self.top),
        ]
    }

    /// A point on the border is inside.
    pub fn holds(&self, point: Point) -> bool {
        let within = |low, n, high| Fraction::whole(low) <= n && n <= Fraction::whole(high);
        within(self.left, point.x, self.right) && within(self.bottom, point.y, self.top)
    }

    /// Bit 0 left, bit 1 right, bit 2 below, bit 3 above.
    pub fn code(&self, point: Point) -> u8 {
        let outside = [
            point.x < Fraction::whole(self.left),
            point.x > Fraction::whole(self.right),
            point.y < Fraction::whole(self.bottom),
            point.y > Fraction::whole(self.top),
        ];
        (0..4).map(|bit| u8::from(outside[bit]) << bit).sum()
    }

    pub fn has_area(&self) -> bool {
        self.left < self.right && self.bottom < self.top
    }

    /// What lies in both; its sides are turned round where they are apart.
    pub fn common(&self, other: &Rectangle) -> Rectangle {
        Rectangle {
            left: self.left.max(other.left),
            bottom: self.bottom.max(other.bottom),
            right: self.right.min(other.right),
            top: self.top.min(other.top),
        }
    }
}

/// What is refused in a rectangle: 2 and 3.
pub fn faults(numbers: [i32; 4]) -> [Option<Refusal>; 2] {
    let empty = !Rectangle::of(numbers).has_area();
    [at(table::first_off(&numbers), 2), when(empty, 3)]
}
