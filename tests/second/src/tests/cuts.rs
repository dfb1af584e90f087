//! The sides that each rule names, against their definition: side k, which asks for p t <= q, fixes t0 where p < 0 and
//! p t0 = q, and t1 where p > 0 and p t1 = q. The lowest that does is named, but none at a t0 of 0 and at a t1 of 1.

use super::numbers;
use super::seen::Seen;
use crate::answer::answer;
use crate::call::{read, Call};
use crate::cases::stroke_kinds::{self, turned, Stroke};
use crate::cases::windows::{self, Window};
use crate::cases::{corner_cuts, corner_windows, cuts, lot, shapes, strokes};
use crate::random::Random;

const NO_SIDE: i128 = 255;

#[test]
fn as_worked_out_by_hand() {
    for (line, expected) in [cuts::answered(), corner_cuts::answered()].concat() {
        assert_eq!(answer(&line), expected, "{}", line.escape_ascii());
    }
}

/// p and q of each side: left, right, bottom, top.
fn sides_of(window: Window, stroke: Stroke) -> Vec<[i128; 2]> {
    let [left, bottom, right, top] = window.map(i128::from);
    let [x1, y1, x2, y2] = stroke.map(i128::from);
    vec![
        [x1 - x2, x1 - left],
        [x2 - x1, right - x1],
        [y1 - y2, y1 - bottom],
        [y2 - y1, top - y1],
    ]
}

/// p and q of each edge: where the start lies of it, and how far the stroke leads to its right.
fn edges_of(window: &[i32], stroke: Stroke) -> Vec<[i128; 2]> {
    let corners: Vec<[i128; 2]> = window
        .chunks_exact(2)
        .map(|c| [c[0].into(), c[1].into()])
        .collect();
    let [x1, y1, x2, y2] = stroke.map(i128::from);
    let edge = |k: usize| {
        let ([ax, ay], [bx, by]) = (corners[k], corners[(k + 1) % corners.len()]);
        let left_of_it = |x: i128, y: i128| (bx - ax) * (y - ay) - (by - ay) * (x - ax);
        let (start, end) = (left_of_it(x1, y1), left_of_it(x2, y2));
        [start - end, start]
    };
    (0..corners.len()).map(edge).collect()
}

/// Which sides fix a fraction n/d: for t0 those of negative p, for t1 those of positive p.
fn fixing(sides: &[[i128; 2]], sign: i128, [n, d]: [i128; 2]) -> Vec<usize> {
    let fixes = |k: &usize| sides[*k][0].signum() == sign && sides[*k][0] * n == sides[*k][1] * d;
    (0..sides.len()).filter(fixes).collect()
}

/// The answer's last two numbers are the sides of the definition; notes what kind of case it was.
fn held(seen: &mut Seen, line: &[u8], sides: &[[i128; 2]]) {
    let answer = numbers(line);
    let [number, _, kept, n0, d0, n1, d1] = answer[..7].try_into().expect("7 numbers");
    let at_start = fixing(sides, -1, [n0, d0]);
    let at_end = fixing(sides, 1, [n1, d1]);
    let named = |own: bool, fixing: &[usize]| match fixing {
        [lowest, ..] if kept == 1 && !own => *lowest as i128,
        _ => NO_SIDE,
    };
    let expected = [
        named([n0, d0] == [0, 1], &at_start),
        named([n1, d1] == [1, 1], &at_end),
    ];
    assert_eq!(
        answer[answer.len() - 2..],
        expected,
        "{}",
        line.escape_ascii()
    );
    if kept == 0 {
        seen.count("refused", number != 0);
        seen.count("missed", number == 0);
        return;
    }
    // A cut end has a side to be named.
    assert_eq!(expected[0] == NO_SIDE, n0 == 0);
    assert_eq!(expected[1] == NO_SIDE, n1 == d1);
    seen.count("two inward", n0 > 0 && at_start.len() == 2);
    seen.count("two outward", n1 < d1 && at_end.len() == 2);
    let closing = sides.len() - 1;
    let first_corner = |fixing: &[usize]| closing > 1 && *fixing == [0, closing];
    seen.count("first corner inward", n0 > 0 && first_corner(&at_start));
    seen.count("first corner outward", n1 < d1 && first_corner(&at_end));
    seen.count("comes to the border", n0 == d0);
    seen.count("leaves the border", n1 == 0);
    seen.count("inward from the border", n0 == 0 && !at_start.is_empty());
    seen.count("outward to the border", n1 == d1 && !at_end.is_empty());
    seen.count("touches", n0 * d1 == n1 * d0 && 0 < n0 && n0 < d0);
    seen.count("cut twice", n0 > 0 && n1 < d1);
}

/// By both rules.
fn rectangle(seen: &mut Seen, window: Window, stroke: Stroke) {
    for rule in ["lb", "cs"] {
        let line = strokes::of(rule, window, stroke);
        held(seen, &line, &sides_of(window, stroke));
    }
}

/// Both ways round, since the stroke turned round has its edges exchanged.
fn corner_window(seen: &mut Seen, window: &[i32], stroke: Stroke) {
    let both = [stroke, turned(stroke)].map(|stroke| {
        let line = corner_windows::of(window, stroke);
        held(seen, &line, &edges_of(window, stroke));
        numbers(&line)
    });
    let [forth, back] = both.map(|answer| [answer[7], answer[8]]);
    assert_eq!(back, [forth[1], forth[0]], "{window:?} {stroke:?}");
}

/// All whose ends have coordinates from -`before` on, `count` of them.
fn small_strokes(before: i32, count: i32) -> impl Iterator<Item = Stroke> {
    let digits = move |k: i32| [0, 1, 2, 3].map(|place| k / count.pow(place) % count - before);
    (0..count.pow(4)).map(digits)
}

#[test]
fn every_small_stroke() {
    let mut seen = Seen::default();
    for stroke in small_strokes(4, 13) {
        rectangle(&mut seen, [0, 0, 4, 3], stroke);
    }
    seen.at_least(&[
        ("two inward", 600),
        ("two outward", 600),
        ("comes to the border", 1_500),
        ("leaves the border", 1_500),
        ("inward from the border", 1_000),
        ("outward to the border", 1_000),
        ("touches", 400),
        ("missed", 10_000),
    ]);
}

/// Windows of 3 to 6 corners, begun at each of them.
#[test]
fn every_small_stroke_by_corners() {
    let mut seen = Seen::default();
    let windows: [&[[i32; 2]]; 4] = [
        &[[0, 0], [3, 0], [0, 3]],
        &[[0, 0], [3, 0], [3, 2], [0, 2]],
        &[[1, 0], [3, 1], [3, 2], [1, 3], [0, 2]],
        &[[1, 0], [2, 0], [3, 1], [2, 3], [1, 3], [0, 1]],
    ];
    for corners in windows {
        for first in 0..corners.len() {
            let mut begun = corners.to_vec();
            begun.rotate_left(first);
            for stroke in small_strokes(2, 8) {
                corner_window(&mut seen, &begun.concat(), stroke);
            }
        }
    }
    seen.at_least(&[
        ("first corner inward", 800),
        ("first corner outward", 800),
        ("touches", 4_000),
    ]);
}

#[test]
fn random_strokes() {
    let mut seen = Seen::default();
    let mut random = Random::new(6);
    for _ in 0..20_000 {
        let window = windows::window(&mut random);
        let stroke = stroke_kinds::stroke(&mut random, window);
        rectangle(&mut seen, window, stroke);
        let corners = shapes::convex(&mut random, 16, window);
        let stroke = corner_windows::stroke(&mut random, &corners);
        corner_window(&mut seen, &corners.concat(), stroke);
    }
    seen.at_least(&[("two inward", 1_000), ("first corner inward", 500)]);
}

/// In a lot every rule meets each kind, and what it names is right.
#[test]
fn a_lot_has_every_kind() {
    let mut by_rule = [(); 3].map(|_| Seen::default());
    for line in lot(5, 10_000) {
        match read(&line) {
            Some(Call::LiangBarsky(window, stroke)) => {
                held(&mut by_rule[0], &line, &sides_of(window, stroke));
            }
            Some(Call::CohenSutherland(window, stroke)) => {
                held(&mut by_rule[1], &line, &sides_of(window, stroke));
            }
            Some(Call::CyrusBeck(window, stroke)) => {
                held(&mut by_rule[2], &line, &edges_of(&window, stroke));
            }
            _ => {}
        }
    }
    for seen in &by_rule {
        seen.at_least(&[
            ("two inward", 40),
            ("two outward", 40),
            ("comes to the border", 20),
            ("leaves the border", 20),
            ("inward from the border", 20),
            ("outward to the border", 20),
            ("touches", 20),
            ("cut twice", 100),
            ("missed", 100),
            ("refused", 100),
        ]);
    }
    by_rule[2].at_least(&[("first corner inward", 20), ("first corner outward", 20)]);
}
