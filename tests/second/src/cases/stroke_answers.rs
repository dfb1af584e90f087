//! Lines of a stroke with their answers, put together from what is known by hand of it: by both rules, and turned round.

use super::line::Answered;
use super::list_answers::{self, by_both_names, rows, Known};
use super::stroke_kinds::{mirrored, turned, Stroke};
use super::strokes;
use super::windows::Window;
use crate::batch::Touches;

/// A stroke of which something is kept.
#[derive(Clone, Copy)]
pub struct Kept {
    pub stroke: Stroke,
    /// t0 and t1, each its numerator before its denominator.
    pub fractions: [i32; 4],
    pub points: [i32; 4],
    /// The sides that fixed t0 and t1.
    pub sides: [i32; 2],
    /// As many either way round, since each end of a kept stroke is shortened for itself.
    pub shortenings: i32,
}

/// The number for a side where the stroke's own end remains, and where nothing is kept.
pub const OWN: i32 = 255;

/// A stroke of which nothing is kept, with its shortenings this way round and turned round.
pub type Missed = (Stroke, [i32; 2]);

pub const fn kept(
    stroke: Stroke,
    fractions: [i32; 4],
    points: [i32; 4],
    sides: [i32; 2],
    shortenings: i32,
) -> Kept {
    Kept {
        stroke,
        fractions,
        points,
        sides,
        shortenings,
    }
}

impl Kept {
    /// It is crossed outward where it was crossed inward, so the sides are exchanged, too.
    fn turned(&self) -> Kept {
        let [n0, d0, n1, d1] = self.fractions;
        let [first, last] = self.sides;
        Kept {
            stroke: turned(self.stroke),
            fractions: [d1 - n1, d1, d0 - n0, d0],
            points: turned(self.points),
            sides: [last, first],
            ..*self
        }
    }

    /// For strokes that are out at one side only: left and below, right and above change places.
    pub fn mirrored(&self) -> Kept {
        let other_axis = |side: i32| if side == OWN { OWN } else { (side + 2) % 4 };
        Kept {
            stroke: mirrored(self.stroke),
            points: mirrored(self.points),
            sides: self.sides.map(other_axis),
            ..*self
        }
    }

    fn known(&self) -> Known {
        let ([n0, d0, n1, d1], [x, y, ..]) = (self.fractions, self.points);
        if [n0, d0] == [n1, d1] {
            Known::Touch(self.stroke, [x, y])
        } else {
            Known::Given(self.stroke, self.points)
        }
    }

    fn answered(&self, window: Window) -> [Answered; 2] {
        let head = [0, 0, 1];
        let numbers = [&head[..], &self.fractions, &self.points].concat();
        by_both_rules(window, self.stroke, &numbers, self.sides, self.shortenings)
    }
}

/// Each stroke both ways round, by both rules and all in one list.
pub fn both_ways(window: Window, missed: &[Missed], kept: &[Kept]) -> Vec<Answered> {
    let mut cases = Vec::new();
    for (stroke, [forth, back]) in missed {
        let numbers = [0, 0, 0, 0, 1, 0, 1, 0, 0, 0, 0];
        for (stroke, count) in [(*stroke, *forth), (turned(*stroke), *back)] {
            cases.extend(by_both_rules(window, stroke, &numbers, [OWN; 2], count));
        }
    }
    for kept in kept {
        cases.extend(kept.answered(window));
        cases.extend(kept.turned().answered(window));
    }
    cases.extend(in_a_list(window, missed, kept));
    cases
}

/// Refused by 6: the places of the first number off the table, this way round and turned round.
pub fn refused(window: Window, stroke: Stroke, [forth, back]: [i32; 2]) -> [Answered; 4] {
    let numbers = |place: i32| [6, place, 0, 0, 1, 0, 1, 0, 0, 0, 0];
    let [a, b] = by_both_rules(window, stroke, &numbers(forth), [OWN; 2], 0);
    let [c, d] = by_both_rules(window, turned(stroke), &numbers(back), [OWN; 2], 0);
    [a, b, c, d]
}

/// The list that has a refused stroke behind a good one: nothing is written.
pub fn refused_list(window: Window, good: Stroke, bad: Stroke, place: i32) -> [Answered; 2] {
    list_answers::refused(2, window, &[good, bad].concat(), [6, 4 + place])
}

/// The sides stand last, behind the count.
fn by_both_rules(
    window: Window,
    stroke: Stroke,
    numbers: &[i32],
    sides: [i32; 2],
    count: i32,
) -> [Answered; 2] {
    let (common, sides) = (text(numbers), text(&sides));
    [
        (
            strokes::of("lb", window, stroke),
            format!("{common} {sides}"),
        ),
        (
            strokes::of("cs", window, stroke),
            format!("{common} {count} {sides}"),
        ),
    ]
}

/// The missed come first, so that an index is not the count of rows before it. The room is one number too long where
/// touches are asked for.
fn in_a_list(window: Window, missed: &[Missed], kept: &[Kept]) -> [Answered; 2] {
    let missed = missed.iter().flat_map(|(s, _)| [*s, turned(*s)]);
    let mut list: Vec<Known> = missed.map(Known::Missed).collect();
    for kept in kept.iter().flat_map(|kept| [*kept, kept.turned()]) {
        list.push(kept.known());
    }
    let needed = rows(Touches::Given, &list).len();
    by_both_names(needed + 1, window, &list)
}

pub fn text(numbers: &[i32]) -> String {
    let words: Vec<String> = numbers.iter().map(i32::to_string).collect();
    words.join(" ")
}
