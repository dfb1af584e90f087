//! Neighbouring strips: what is promised of them holds of this program's own answers, and a lot has enough of each kind of case.

use super::seen::Seen;
use crate::answer::answer;
use crate::cases::joined;
use crate::cases::neighbours::{Asked, Group, Neighbours};
use crate::cases::stroke_kinds::Stroke;
use crate::table::MOST;
use crate::together::kinds::{Kind, Tally};
use crate::together::{held, tally};

/// This program's own answers to these lines, and what is said of them.
fn own(lines: &[Vec<u8>], said: fn(&[u8], &[u8]) -> Result<Tally, String>) -> Tally {
    let answers: Vec<String> = lines.iter().map(|line| answer(line)).collect();
    said(&lines.join(&b'\n'), answers.join("\n").as_bytes()).expect("every sentence holds")
}

/// All whose ends have coordinates from -1 to 5.
#[test]
fn every_small_stroke() {
    for (joined, border) in [([0, 0, 4, 3], 2), ([0, 1, 4, 4], 1), ([1, 1, 3, 2], 2)] {
        let mut lines = Vec::new();
        for k in 0..7_i32.pow(4) {
            let stroke = [0, 1, 2, 3].map(|place| k / 7_i32.pow(place) % 7 - 1);
            let strips = Neighbours { joined, border };
            let asked = Asked::Stroke(stroke);
            lines.extend(Group { strips, asked }.lines());
        }
        let tally = own(&lines, tally);
        assert_eq!(tally.groups, 2_401);
        for (kind, least) in [
            (Kind::CrossingRightward, 80),
            (Kind::CrossingLeftward, 80),
            (Kind::TouchingOne, 100),
            (Kind::TouchingBoth, 20),
            (Kind::AlongKept, 30),
            (Kind::AlongMissed, 5),
            (Kind::ByOne, 300),
            (Kind::ByNone, 300),
        ] {
            assert!(tally.count("lb", kind) >= least, "{joined:?}: {tally}");
        }
    }
}

/// Whether the stroke meets the border at a half between whole heights that both strips have.
fn at_a_half(strips: &Neighbours, [x1, y1, x2, y2]: Stroke) -> bool {
    let [x1, y1, x2, y2] = [x1, y1, x2, y2].map(i64::from);
    let (way, part) = (x2 - x1, i64::from(strips.border) - x1);
    if way == 0 || part.signum() != way.signum() || part.abs() > way.abs() {
        return false;
    }
    let [_, bottom, _, top] = strips.joined.map(i64::from);
    let twice = 2 * (y1 * way + (y2 - y1) * part);
    twice % way == 0 && twice / way % 2 != 0 && (2 * bottom..2 * top).contains(&(twice / way))
}

/// Beyond the fixed groups, which are the same for every seed.
#[test]
fn a_lot_has_all_kinds() {
    let (fixed, lines) = (joined::fixed(), joined::lines(5, 10_000));
    assert_eq!(lines[..fixed.len()], fixed);
    let random = &lines[fixed.len()..];
    own(random, held);
    let rest: Vec<&[u8]> = random.iter().map(Vec::as_slice).collect();
    let mut seen = Seen::default();
    let mut at = 0;
    while let Some(group) = Group::first_of(&rest[at..]) {
        at += 3 * group.words().len();
        let ([left, right, _], strips) = (group.strips.windows(), group.strips);
        let narrow = [left, right].iter().any(|[l, _, r, _]| r - l == 1);
        seen.count("one step wide", narrow);
        seen.count("whole table", strips.joined == [-MOST, -MOST, MOST, MOST]);
        match &group.asked {
            Asked::Stroke(stroke) => seen.count("at a half", at_a_half(&strips, *stroke)),
            Asked::List(room, list) => seen.count("exact room", strips.needed(list) == *room),
        }
    }
    assert_eq!(at, rest.len());
    seen.at_least(&[
        ("one step wide", 600),
        ("whole table", 60),
        ("at a half", 120),
        ("exact room", 100),
    ]);
}
