//! The cross-product method for a stroke against a rectangle: on which side of the stroke's line each of the window's four
//! corners lies tells whether the line meets the window at all, and which two of its sides it crosses.
//!
//! As the method is printed, a corner on the line counts as one to its left, so that what runs along a border, or meets a
//! corner alone, is lost one way round. Here such a corner lies on neither side.

use crate::fraction::Fraction;
use crate::kept::Kept;
use crate::rectangle::Rectangle;
use crate::stroke::Stroke;

/// The two corners of each side, left, right, bottom, top, in the order in which the border is walked counterclockwise.
const ENDS: [[usize; 2]; 4] = [[3, 0], [1, 2], [0, 1], [2, 3]];

pub fn clip(window: [i32; 4], stroke: [i32; 4]) -> Option<Kept> {
    let (window, stroke) = (Rectangle::of(window), Stroke::of(stroke));
    let [a, b] = [Fraction::ZERO, Fraction::ONE].map(|t| window.code(stroke.at(t)));
    let crosses = at_corners(&window, &stroke);
    if a & b != 0 || all_on_one_side(crosses) {
        return None;
    }
    // The line meets the window, and the stroke does: if it came in only behind the stroke's end, or went out before its start,
    // both ends would lie outside the side that it crosses there. From the other end, left is right and the way out the way in.
    let first = (a != 0).then(|| way_in(crosses));
    let last = (b != 0).then(|| way_in(crosses.map(|cross| -cross)));
    let at = |side: usize| stroke.where_side(&window, side).expect("it is crossed");
    let t0 = first.map_or(Fraction::ZERO, at);
    let t1 = last.map_or(Fraction::ONE, at);
    Some(Kept::of(stroke, [t0, t1], [first, last]))
}

/// The stroke's way times the way from its start to each corner, counterclockwise from the lower left one: positive to the
/// left of the stroke's line, 0 on it, negative to the right. Twice the area of a triangle on the table, so at most 32,766
/// times 32,766.
pub fn at_corners(window: &Rectangle, stroke: &Stroke) -> [i128; 4] {
    let Rectangle {
        left,
        bottom,
        right,
        top,
    } = *window;
    let corners = [[left, bottom], [right, bottom], [right, top], [left, top]];
    corners.map(|[x, y]| stroke.dx * (y - stroke.y1) - stroke.dy * (x - stroke.x1))
}

/// Strictly, since the line meets the window where a corner lies on it.
fn all_on_one_side(crosses: [i128; 4]) -> bool {
    crosses.iter().all(|cross| *cross > 0) || crosses.iter().all(|cross| *cross < 0)
}

/// The side by which a line that meets the window comes in. Counterclockwise the window lies to the left of each side, so it
/// is one that the line crosses from its right to its left: the side's first corner is to the left of the line and its second
/// to the right, or one of them is on the line. At a corner there may be two, of which the lower one counts.
fn way_in(crosses: [i128; 4]) -> usize {
    let inward = |side: &usize| {
        let [first, second] = ENDS[*side].map(|corner| crosses[corner]);
        first >= 0 && second <= 0 && first != second
    };
    (0..4).find(inward).expect("the line meets the window")
}
