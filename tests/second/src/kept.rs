//! What is kept of a stroke, and the kept t from their definition: all t in 0 to 1 that meet every bound p t <= q.
//!
//! They form a closed interval, so its ends are 0, 1 or a t at which some bound is met with equality.
//! The least and the greatest of those few candidates that meet every bound are therefore its ends.

use crate::fraction::Fraction;
use crate::point::Point;
use crate::rounding::half_to_even;
use crate::stroke::Stroke;

/// The side that fixed t0 and the side that fixed t1; none where the stroke's own end remains.
pub type Sides = [Option<usize>; 2];

/// Of a stroke against a rectangle: the fractions, the two ends rounded to the grid, and the sides.
#[derive(Clone, Copy, Debug, PartialEq, Eq)]
pub struct Kept {
    pub t0: Fraction,
    pub t1: Fraction,
    pub first: [i128; 2],
    pub last: [i128; 2],
    pub sides: Sides,
}

impl Kept {
    pub fn of(stroke: Stroke, [t0, t1]: [Fraction; 2], sides: Sides) -> Kept {
        Kept {
            t0,
            t1,
            first: rounded(stroke.at(t0)),
            last: rounded(stroke.at(t1)),
            sides,
        }
    }

    /// One common point of a stroke with length. The exact fractions decide, since two different points may be rounded to
    /// the same one; a stroke of no length has 0 and 1.
    pub fn only_touches(&self) -> bool {
        self.t0 == self.t1
    }
}

/// Each coordinate by its own value alone, so that it does not matter at which end the stroke starts.
fn rounded(point: Point) -> [i128; 2] {
    [point.x, point.y].map(half_to_even)
}

#[derive(Clone, Copy, Debug)]
pub struct Bound {
    pub p: i128,
    pub q: i128,
}

impl Bound {
    fn meets(&self, t: Fraction) -> bool {
        self.p * t.num <= self.q * t.den
    }

    pub fn equality(&self) -> Option<Fraction> {
        (self.p != 0).then(|| Fraction::new(self.q, self.p))
    }
}

pub fn ends(bounds: &[Bound]) -> Option<(Fraction, Fraction)> {
    let mut all = vec![Bound { p: -1, q: 0 }, Bound { p: 1, q: 1 }];
    all.extend(bounds);
    let kept = |t: &Fraction| all.iter().all(|bound| bound.meets(*t));
    let candidates: Vec<Fraction> = all
        .iter()
        .filter_map(Bound::equality)
        .filter(kept)
        .collect();
    Some((*candidates.iter().min()?, *candidates.iter().max()?))
}
