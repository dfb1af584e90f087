//! What is promised of one stroke, on the answers of the left strip, of the right one and of the joined window.

use super::kinds::Kind;
use super::sentences::{holds, ALIKE, ALONG, KEPT, ONE_FRACTION, SAME_POINT, TOGETHER};
use crate::cases::stroke_kinds::Stroke;
use crate::fraction::Fraction;
use std::cmp::Ordering;

/// One end of what is kept: its fraction, and the rounded point there.
#[derive(Clone, Copy)]
struct End {
    t: Fraction,
    point: [i128; 2],
}

/// From its first end to its last.
type Part = [End; 2];

#[derive(Clone, Copy)]
pub struct Answer {
    refusal: [i128; 2],
    part: Option<Part>,
}

/// The sides are not looked at, since the border is no side of the joined window, and neither is the count of shortenings.
pub fn read(word: &str, numbers: &[i128]) -> Option<Answer> {
    let fields = if word == "cs" { 14 } else { 13 };
    let [number, place, kept, n0, d0, n1, d1, ax, ay, bx, by, ..] = *numbers else {
        return None;
    };
    if numbers.len() != fields || d0 < 1 || d1 < 1 {
        return None;
    }
    let [t0, t1] = [Fraction::new(n0, d0), Fraction::new(n1, d1)];
    let [first, last] = [(t0, [ax, ay]), (t1, [bx, by])].map(|(t, point)| End { t, point });
    let part = match kept {
        0 => None,
        1 if t0 <= t1 => Some([first, last]),
        _ => return None,
    };
    let refusal = [number, place];
    Some(Answer { refusal, part })
}

/// Which kind of case it is, where every sentence holds; else the first that does not.
pub fn kind(border: i32, stroke: Stroke, answers: [Answer; 3]) -> Result<Kind, &'static str> {
    let [one, other, both] = answers.map(|answer| answer.refusal);
    holds(ALIKE, [one, other] == [both; 2])?;
    if both != [0, 0] {
        return Ok(Kind::Refused);
    }
    let [left, right, joined] = answers.map(|answer| answer.part);
    let kept: Vec<Part> = [left, right].into_iter().flatten().collect();
    holds(KEPT, joined.is_some() != kept.is_empty())?;
    let [x1, _, x2, _] = stroke;
    let along = [x1, x2] == [border; 2];
    holds(ALONG, !along || left.map(span) == right.map(span))?;
    holds(TOGETHER, joined.map(span) == together(&kept))?;
    let [before, after] = if x1 < x2 {
        [left, right]
    } else {
        [right, left]
    };
    if let (Some(before), Some(after), true) = (before, after, x1 != x2) {
        holds(ONE_FRACTION, before[1].t == after[0].t)?;
        holds(SAME_POINT, same_point(after[0], [before, after].concat()))?;
    }
    Ok(match &kept[..] {
        [] if along => Kind::AlongMissed,
        [] => Kind::ByNone,
        _ if along => Kind::AlongKept,
        [one, other] => both_kept(x1.cmp(&x2), *one, *other),
        _ => Kind::ByOne,
    })
}

fn span([first, last]: Part) -> [Fraction; 2] {
    [first.t, last.t]
}

/// From the first of all ends to the last; none where a gap is between, or nothing is kept.
fn together(parts: &[Part]) -> Option<[Fraction; 2]> {
    let firsts = || parts.iter().map(|[first, _]| first.t);
    let lasts = || parts.iter().map(|[_, last]| last.t);
    if firsts().max() > lasts().min() {
        return None;
    }
    Some([firsts().min()?, lasts().max()?])
}

/// Where only one point is kept, both of its ends are there.
fn same_point(shared: End, ends: Vec<End>) -> bool {
    let mut there = ends.iter().filter(|end| end.t == shared.t);
    there.all(|end| end.point == shared.point)
}

/// An upright stroke beside the border is no wanted kind: in truth one strip alone can keep it.
fn both_kept(way: Ordering, left: Part, right: Part) -> Kind {
    let touches = [left, right].map(span).map(|[t0, t1]| t0 == t1);
    match (touches, way) {
        ([true, true], _) => Kind::TouchingBoth,
        ([true, _] | [_, true], _) => Kind::TouchingOne,
        (_, Ordering::Less) => Kind::CrossingRightward,
        (_, Ordering::Greater) => Kind::CrossingLeftward,
        (_, Ordering::Equal) => Kind::ByBoth,
    }
}
