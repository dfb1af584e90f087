//! Lists of strokes with their answers, put together from what is known by hand of each stroke: by `batch`, which leaves out
//! those that only touch, and by `touches`, which gives them.

use super::batches::{self, BOTH};
use super::line::Answered;
use super::stroke_answers::text;
use super::stroke_kinds::{turned, Stroke};
use super::windows::Window;
use crate::batch::Touches;

#[derive(Clone, Copy)]
pub enum Known {
    Missed(Stroke),
    /// It has this one point of the window and no more.
    Touch(Stroke, [i32; 2]),
    /// It has more of the window, or no length: where it starts and ends on the grid.
    Given(Stroke, [i32; 4]),
}

impl Known {
    fn stroke(&self) -> Stroke {
        match *self {
            Known::Missed(stroke) | Known::Touch(stroke, _) | Known::Given(stroke, _) => stroke,
        }
    }

    /// The points in its row, if it has one.
    fn points(&self, touches: Touches) -> Option<[i32; 4]> {
        match *self {
            Known::Given(_, points) => Some(points),
            Known::Touch(_, [x, y]) if touches == Touches::Given => Some([x, y, x, y]),
            _ => None,
        }
    }

    pub fn turned(&self) -> Known {
        match *self {
            Known::Missed(stroke) => Known::Missed(turned(stroke)),
            Known::Touch(stroke, point) => Known::Touch(turned(stroke), point),
            Known::Given(stroke, points) => Known::Given(turned(stroke), turned(points)),
        }
    }

    /// Each of its points taken elsewhere, as the window is.
    pub fn moved(&self, to: impl Fn([i32; 2]) -> [i32; 2]) -> Known {
        let both = |[a, b, c, d]: [i32; 4]| {
            let ([a, b], [c, d]) = (to([a, b]), to([c, d]));
            [a, b, c, d]
        };
        match *self {
            Known::Missed(stroke) => Known::Missed(both(stroke)),
            Known::Touch(stroke, point) => Known::Touch(both(stroke), to(point)),
            Known::Given(stroke, points) => Known::Given(both(stroke), both(points)),
        }
    }
}

/// Five numbers for each stroke that is given.
pub fn rows(touches: Touches, list: &[Known]) -> Vec<i32> {
    let mut rows = Vec::new();
    for (index, known) in (0..).zip(list) {
        if let Some(points) = known.points(touches) {
            rows.push(index);
            rows.extend(points);
        }
    }
    rows
}

/// One list by both names, in the same room.
pub fn by_both_names(room: usize, window: Window, list: &[Known]) -> [Answered; 2] {
    BOTH.map(|touches| {
        let strokes: Vec<Stroke> = list.iter().map(Known::stroke).collect();
        let line = batches::of(touches, room, window, &strokes.concat());
        let rows = rows(touches, list);
        let needed = rows.len() as i32;
        let answer = if rows.len() > room {
            filled(&[8, needed, 0], &[], room)
        } else {
            filled(&[0, 0, needed], &rows, room)
        };
        (line, answer)
    })
}

/// A list by both names, with as much room as it needs with its touches.
pub fn exactly(window: Window, list: &[Known]) -> [Answered; 2] {
    by_both_names(rows(Touches::Given, list).len(), window, list)
}

/// The list refused by both names, with nothing written.
pub fn refused(
    room: usize,
    window: Window,
    list: &[i32],
    [number, place]: [i32; 2],
) -> [Answered; 2] {
    BOTH.map(|touches| {
        let line = batches::of(touches, room, window, list);
        (line, filled(&[number, place, 0], &[], room))
    })
}

/// What was written from the front of the room; the rest is as it was.
pub fn filled(head: &[i32], written: &[i32], room: usize) -> String {
    let rest: Vec<i32> = (7_000_000..).take(room).skip(written.len()).collect();
    text(&[head, written, &rest].concat())
}

/// Each stroke as it is, mirrored in either direction, with x and y exchanged, and all of that both ways round. The window's
/// left is its bottom and its right is its top; where their sum is odd, no stroke may meet a side at a half.
pub fn everywhere(window: Window, list: &[Known]) -> Vec<Known> {
    let across = window[0] + window[2];
    let mut all = Vec::new();
    for k in 0..8 {
        let image = |[x, y]: [i32; 2]| {
            let x = if k & 1 == 0 { x } else { across - x };
            let y = if k & 2 == 0 { y } else { across - y };
            if k & 4 == 0 {
                [x, y]
            } else {
                [y, x]
            }
        };
        all.extend(list.iter().map(|known| known.moved(image)));
    }
    both_ways(&all)
}

pub fn both_ways(list: &[Known]) -> Vec<Known> {
    list.iter().flat_map(|k| [*k, k.turned()]).collect()
}
