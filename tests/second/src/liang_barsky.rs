//! A stroke against a rectangle: what is kept of it, and what is refused.

use crate::fraction::Fraction;
use crate::kept::{self, Bound, Kept, Sides};
use crate::rectangle::{self, Rectangle};
use crate::refusal::{at, lowest, Refusal};
use crate::stroke::Stroke;
use crate::table;

/// The refusals of a single stroke against a rectangle: 2, 3, 6.
pub fn taken(window: [i32; 4], stroke: [i32; 4]) -> Result<(), Refusal> {
    let [range, area] = rectangle::faults(window);
    lowest(&[range, area, at(table::first_off(&stroke), 6)])
}

pub fn clip(window: [i32; 4], stroke: [i32; 4]) -> Option<Kept> {
    let stroke = Stroke::of(stroke);
    let bounds = bounds(Rectangle::of(window), stroke);
    let (t0, t1) = kept::ends(&bounds)?;
    Some(Kept::of(stroke, [t0, t1], sides(&bounds)))
}

/// Side after side the first t only grows and the last t only shrinks. A side counts where it moves one of them, so of
/// two at the same t the earlier one is named, and none where the stroke's own end is as far.
fn sides(bounds: &[Bound]) -> Sides {
    let (mut first, mut last) = ((Fraction::ZERO, None), (Fraction::ONE, None));
    for (side, bound) in bounds.iter().enumerate() {
        match bound.equality() {
            Some(t) if bound.p < 0 && t > first.0 => first = (t, Some(side)),
            Some(t) if bound.p > 0 && t < last.0 => last = (t, Some(side)),
            _ => {}
        }
    }
    [first.1, last.1]
}

/// Left, right, bottom, top.
fn bounds(window: Rectangle, stroke: Stroke) -> [Bound; 4] {
    let Stroke { x1, y1, dx, dy } = stroke;
    let pairs = [
        (-dx, x1 - window.left),
        (dx, window.right - x1),
        (-dy, y1 - window.bottom),
        (dy, window.top - y1),
    ];
    pairs.map(|(p, q)| Bound { p, q })
}
