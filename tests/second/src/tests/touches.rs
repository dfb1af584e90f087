//! Which strokes a list leaves out: those with length that have one point of the window and no more. Whether a stroke is one
//! of them is decided here without its fractions, by counting points and by where the window's corners lie.

use super::seen::Seen;
use super::{expect, numbers, rows_of};
use crate::answer::answer;
use crate::batch::Touches;
use crate::call::{read, Call};
use crate::cases::stroke_kinds::Stroke;
use crate::cases::windows::{self, Window};
use crate::cases::{batches, lot, strokes, touch_kinds, touches};
use crate::random::Random;

#[test]
fn lists_worked_out_by_hand() {
    for (line, expected) in touches::answered() {
        assert_eq!(answer(&line), expected, "{}", line.escape_ascii());
    }
}

#[test]
fn examples() {
    expect(&[
        // B meets the window at (0, 0) alone.
        (
            "batch 5 0 0 10 10 4 -5 5 5 -5",
            "0 0 0 7000000 7000001 7000002 7000003 7000004",
        ),
        ("touches 5 0 0 10 10 4 -5 5 5 -5", "0 0 5 0 0 0 0 0"),
        ("lb 0 0 10 10 -5 5 5 -5", "0 0 1 1 2 1 2 0 0 0 0 0 2"),
        // F is a dot that is meant, and so is one on the corner that B touches; G lies outside.
        (
            "batch 10 0 0 10 10 12 10 10 10 10 11 10 11 10 0 0 0 0",
            "0 0 10 0 10 10 10 10 2 0 0 0 0",
        ),
        (
            "touches 10 0 0 10 10 12 10 10 10 10 11 10 11 10 0 0 0 0",
            "0 0 10 0 10 10 10 10 2 0 0 0 0",
        ),
        // From (0, 1/4), which is at 1/4, to (1/3, 0), which is at 1/3: the nearest grid point of both is (0, 0).
        ("lb 0 0 10 10 -1 1 3 -2", "0 0 1 1 4 1 3 0 0 0 0 0 2"),
        ("batch 5 0 0 10 10 4 -1 1 3 -2", "0 0 5 0 0 0 0 0"),
        ("touches 5 0 0 10 10 4 -1 1 3 -2", "0 0 5 0 0 0 0 0"),
        // Along the line of the bottom: to the corner, and one step further.
        ("batch 1 0 0 10 10 4 -5 0 0 0", "0 0 0 7000000"),
        ("batch 5 0 0 10 10 4 -5 0 1 0", "0 0 5 0 0 0 1 0"),
        // To the middle of the top, and from there away.
        ("batch 1 0 0 10 10 8 5 15 5 10 5 10 5 15", "0 0 0 7000000"),
        (
            "touches 10 0 0 10 10 8 5 15 5 10 5 10 5 15",
            "0 0 10 0 5 10 5 10 1 5 10 5 10",
        ),
    ]);
}

/// B and A: the one needs no room unless touches are asked for.
#[test]
fn needs() {
    expect(&[
        ("batch 0 0 0 10 10 4 -5 5 5 -5", "0 0 0"),
        ("touches 0 0 0 10 10 4 -5 5 5 -5", "8 5 0"),
        (
            "batch 4 0 0 10 10 8 -5 5 5 -5 -5 5 15 5",
            "8 5 0 7000000 7000001 7000002 7000003",
        ),
        (
            "batch 5 0 0 10 10 8 -5 5 5 -5 -5 5 15 5",
            "0 0 5 1 0 5 10 5",
        ),
        (
            "touches 5 0 0 10 10 8 -5 5 5 -5 -5 5 15 5",
            "8 10 0 7000000 7000001 7000002 7000003 7000004",
        ),
        (
            "touches 10 0 0 10 10 8 -5 5 5 -5 -5 5 15 5",
            "0 0 10 0 0 0 0 0 1 0 5 10 5",
        ),
        ("touches 0 0 0 10 10 0", "0 0 0"),
        // The other refusals are as they were, and come first.
        ("touches 0 0 0 10 16384 4 -5 5 5 -5", "2 3 0"),
        ("touches 0 0 0 10 0 4 -5 5 5 -5", "3 0 0"),
        ("touches 0 0 0 10 10 3 -5 5 5", "5 0 0"),
        ("touches 0 0 0 10 10 4 -5 5 5 -16384", "6 3 0"),
    ]);
}

/// What a stroke has in common with the window. One of no length has more than one point, too: it is there at every t.
#[derive(Clone, Copy, Debug, PartialEq, Eq)]
enum Common {
    Nothing,
    OnePoint,
    More,
}

/// By the points at 0/840, 1/840 .. of a stroke whose ways in x and in y are at most 8: wherever it meets the line of a side
/// is among them, so both ends of what it has in common with the window are.
fn by_counting(window: Window, stroke: Stroke) -> Common {
    let [left, bottom, right, top] = window.map(|n| 840 * n);
    let [x1, y1, x2, y2] = stroke;
    let inside = |k: &i32| {
        let (x, y) = (840 * x1 + k * (x2 - x1), 840 * y1 + k * (y2 - y1));
        left <= x && x <= right && bottom <= y && y <= top
    };
    match (0..=840).filter(inside).count() {
        0 => Common::Nothing,
        1 => Common::OnePoint,
        _ => Common::More,
    }
}

/// By how far the two reach into each other in x, in y and across the stroke's own line, where the window's corners lie to
/// both sides of it. They are apart exactly where one of these is negative. Where one is 0 only the border is met: in one
/// point, unless the stroke runs along it.
fn by_depth(window: Window, stroke: Stroke) -> Common {
    let [left, bottom, right, top] = window.map(i64::from);
    let [x1, y1, x2, y2] = stroke.map(i64::from);
    let in_x = (x1.max(x2) - left).min(right - x1.min(x2));
    let in_y = (y1.max(y2) - bottom).min(top - y1.min(y2));
    let mut turns = [(left, bottom), (right, bottom), (right, top), (left, top)]
        .map(|(x, y)| (x2 - x1) * (y - y1) - (y2 - y1) * (x - x1));
    turns.sort();
    let across = turns[3].min(-turns[0]);
    let one_point = match (x1 == x2, y1 == y2) {
        (true, true) => false,
        (false, true) => in_x == 0,
        (true, false) => in_y == 0,
        (false, false) => in_x == 0 || in_y == 0 || across == 0,
    };
    match in_x.min(in_y).min(across) {
        ..=-1 => Common::Nothing,
        _ if one_point => Common::OnePoint,
        _ => Common::More,
    }
}

/// By `batch` the rows are of the strokes with more than one point, by `touches` of those with one, too. Their points are
/// those of `lb`.
fn held(seen: &mut Seen, window: Window, list: &[Stroke]) {
    for touches in batches::BOTH {
        let rows = rows_of(touches, window, list);
        let has_row = |index: &usize| match by_depth(window, list[*index]) {
            Common::Nothing => false,
            Common::OnePoint => touches == Touches::Given,
            Common::More => true,
        };
        let expected: Vec<usize> = (0..list.len()).filter(has_row).collect();
        let given: Vec<usize> = rows.iter().map(|row| row[0] as usize).collect();
        assert_eq!(given, expected, "{touches:?} {window:?} {list:?}");
        for [index, points @ ..] in rows {
            let stroke = list[index as usize];
            let single = numbers(&strokes::of("lb", window, stroke));
            assert_eq!(single[7..11], points, "{window:?} {stroke:?}");
            note(seen, window, stroke, &single);
        }
    }
}

/// What kind of row a stroke with this single answer has.
fn note(seen: &mut Seen, window: Window, stroke: Stroke, single: &[i128]) {
    let [n0, d0, _, _, ax, ay, bx, by] = single[3..11].try_into().expect("8 numbers");
    let [x1, y1, x2, y2] = stroke;
    let (length, level) = ([x1, y1] != [x2, y2], x1 == x2 || y1 == y2);
    let same_points = [ax, ay] == [bx, by];
    if by_depth(window, stroke) == Common::More {
        seen.count("more", true);
        seen.count("of no length", !length);
        seen.count("same points", length && same_points);
        return;
    }
    assert!(length && same_points, "{window:?} {stroke:?}");
    seen.count("touches at the start", n0 == 0);
    seen.count("touches at the end", n0 == d0);
    seen.count("touches in passing", 0 < n0 && n0 < d0);
    seen.count("level or upright", level);
    seen.count("long", x1.abs_diff(x2) + y1.abs_diff(y2) > 16_000);
}

/// All whose ends have coordinates from -2 to 6.
#[test]
fn every_small_stroke() {
    let all: Vec<Stroke> = (0..9_i32.pow(4))
        .map(|k| [0, 1, 2, 3].map(|place| k / 9_i32.pow(place) % 9 - 2))
        .collect();
    let mut seen = Seen::default();
    for window in [[0, 0, 4, 4], [1, 0, 2, 3]] {
        for stroke in &all {
            let [one, other] = [by_counting, by_depth].map(|common| common(window, *stroke));
            assert_eq!(one, other, "{window:?} {stroke:?}");
        }
        for list in all.chunks(4_096) {
            held(&mut seen, window, list);
        }
    }
    seen.at_least(&[
        ("more", 12_000),
        ("of no length", 66),
        ("same points", 400),
        ("touches at the start", 600),
        ("touches at the end", 600),
        ("touches in passing", 200),
        ("level or upright", 150),
    ]);
}

#[test]
fn random_lists() {
    let mut seen = Seen::default();
    let mut random = Random::new(8);
    for _ in 0..1_000 {
        let window = touch_kinds::window(&mut random);
        let mut stroke = || touch_kinds::stroke(&mut random, window);
        held(&mut seen, window, &[(); 12].map(|_| stroke()));
        let window = windows::window(&mut random);
        let list = batches::many(&mut random, window);
        let strokes: Vec<Stroke> = list.chunks(4).map(|s| [s[0], s[1], s[2], s[3]]).collect();
        held(&mut seen, window, &strokes);
    }
    seen.at_least(&[
        ("more", 10_000),
        ("of no length", 1_000),
        ("same points", 500),
        ("touches at the start", 800),
        ("touches at the end", 800),
        ("touches in passing", 800),
        ("level or upright", 300),
        ("long", 300),
    ]);
}

/// A lot's random lines have enough of both names, of one list side by side, too, with touches in them and with rooms that
/// do for the one name alone.
#[test]
fn a_lot_has_both_names() {
    let before = lot(5, 0).len() - 1;
    let lines = &lot(5, 10_000)[before..];
    let mut seen = Seen::default();
    for pair in lines.windows(2) {
        let Some(Call::Batch(touches, room, window, list)) = read(&pair[0]) else {
            continue;
        };
        let next = batches::of(Touches::Given, room, window, &list);
        seen.count(
            "side by side",
            touches == Touches::LeftOut && pair[1] == next,
        );
        let number = numbers(&pair[0])[0];
        if number == 0 || number == 8 {
            let short = by_need(&mut seen, touches, room, window, &list);
            assert_eq!(number == 8, short, "{}", pair[0].escape_ascii());
        } else {
            seen.count("refused batch", touches == Touches::LeftOut);
            seen.count("refused touches", touches == Touches::Given);
        }
    }
    seen.at_least(&[
        ("side by side", 80),
        ("refused batch", 60),
        ("refused touches", 50),
        ("batch with touches", 150),
        ("batch of touches alone", 15),
        ("batch in enough for it alone", 60),
        ("batch one short", 8),
        ("touches with touches", 150),
        ("touches in enough for a batch", 40),
        ("touches one short", 8),
    ]);
}

/// Whether the room is too little, by how many strokes have one point and how many have more.
fn by_need(seen: &mut Seen, touches: Touches, room: usize, window: Window, list: &[i32]) -> bool {
    let common = |s: &[i32]| by_depth(window, [s[0], s[1], s[2], s[3]]);
    let count = |kind: Common| list.chunks(4).filter(|s| common(s) == kind).count();
    let (touching, others) = (count(Common::OnePoint), count(Common::More));
    let (least, most) = (5 * others, 5 * (others + touching));
    let some = touching > 0;
    let enough_for_one = least <= room && room < most;
    if touches == Touches::LeftOut {
        seen.count("batch with touches", some);
        seen.count("batch of touches alone", some && others == 0);
        seen.count("batch in enough for it alone", enough_for_one);
        seen.count("batch one short", some && room + 1 == least);
        room < least
    } else {
        seen.count("touches with touches", some);
        seen.count("touches in enough for a batch", enough_for_one);
        seen.count("touches one short", some && room + 1 == most);
        room < most
    }
}
