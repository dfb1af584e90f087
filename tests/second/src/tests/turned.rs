//! A stroke turned round has the same two grid points, exchanged: a half goes to the even number. Its sides are exchanged, too.

use super::seen::Seen;
use super::{numbers, rows_of};
use crate::answer::answer;
use crate::call::{read, Call};
use crate::cases::stroke_kinds::{self, Stroke};
use crate::cases::windows::{self, Window};
use crate::cases::{batches, halves, lot, strokes};
use crate::fraction::Fraction;
use crate::random::Random;
use crate::rounding::half_to_even;
use crate::table::MOST;

#[test]
fn as_worked_out_by_hand() {
    for (line, expected) in halves::answered() {
        assert_eq!(answer(&line), expected, "{}", line.escape_ascii());
    }
}

/// Numerator, denominator and the whole number.
const ROUNDED: [[i128; 3]; 30] = [
    [1, 2, 0],
    [3, 2, 2],
    [5, 2, 2],
    [7, 2, 4],
    [-1, 2, 0],
    [-3, 2, -2],
    [-5, 2, -2],
    [-7, 2, -4],
    // 16381.5, 16382.5 and the same below 0.
    [32_763, 2, 16_382],
    [32_765, 2, 16_382],
    [-32_763, 2, -16_382],
    [-32_765, 2, -16_382],
    // Thirds, quarters and whole numbers.
    [1, 3, 0],
    [2, 3, 1],
    [-1, 3, 0],
    [-2, 3, -1],
    [5, 4, 1],
    [7, 4, 2],
    [-5, 4, -1],
    [-7, 4, -2],
    [7, 1, 7],
    [-7, 1, -7],
    // As near to a half as a stroke's point can be without being there: beside 0.5, 1.5, -0.5 and -2.5.
    [16_382, 32_765, 0],
    [16_383, 32_765, 1],
    [49_147, 32_765, 1],
    [49_148, 32_765, 2],
    [-16_382, 32_765, 0],
    [-16_383, 32_765, -1],
    [-81_912, 32_765, -2],
    [-81_913, 32_765, -3],
];

#[test]
fn halves_go_to_the_even_number() {
    for [n, d, whole] in ROUNDED {
        assert_eq!(half_to_even(Fraction::new(n, d)), whole, "{n}/{d}");
    }
}

/// The halves at the ends of a kept stroke, each by its double and by what it was rounded to.
fn note(seen: &mut Seen, halves: &[[i128; 2]]) {
    seen.count("strokes", !halves.is_empty());
    seen.count("at both ends", halves.len() == 2);
    for [double, rounded] in halves {
        seen.count("below 0", *double < 0);
        seen.count("rounded up", 2 * rounded > *double);
        seen.count("rounded down", 2 * rounded < *double);
        seen.count("by the table's ends", double.abs() > 32_760);
    }
}

/// All whose ends have coordinates from -4 to 9, against windows with even and odd sides.
#[test]
fn every_small_stroke() {
    let mut seen = Seen::default();
    for window in [[0, 0, 5, 4], [-3, -2, 4, 5]] {
        for k in 0..14_i32.pow(4) {
            let stroke = [0, 1, 2, 3].map(|place| k / 14_i32.pow(place) % 14 - 4);
            both_ways(&mut seen, window, stroke);
        }
    }
    seen.at_least(&[
        ("strokes", 5_000),
        ("at both ends", 80),
        ("below 0", 700),
        ("rounded up", 2_500),
        ("rounded down", 2_500),
    ]);
}

#[test]
fn random_strokes() {
    let mut seen = Seen::default();
    let mut random = Random::new(3);
    for _ in 0..20_000 {
        let window = windows::window(&mut random);
        let stroke = stroke_kinds::stroke(&mut random, window);
        both_ways(&mut seen, window, stroke);
        let anywhere = [(); 4].map(|_| random.between(-MOST, MOST));
        both_ways(&mut seen, window, anywhere);
    }
    seen.at_least(&[
        ("strokes", 4_000),
        ("at both ends", 300),
        ("below 0", 1_200),
        ("rounded up", 2_000),
        ("rounded down", 2_000),
        ("by the table's ends", 100),
    ]);
}

/// In a lot the next line has the same stroke turned round often enough, also where a half is met.
#[test]
fn a_lot_has_strokes_turned_round() {
    let (before, count) = (lot(5, 0).len() - 1, 10_000);
    let strokes: Vec<Option<(Window, Stroke)>> = lot(5, count)[before..]
        .iter()
        .map(|line| stroke_of(line))
        .collect();
    let mut seen = Seen::default();
    let mut turned = 0;
    for pair in strokes.windows(2) {
        let [Some((window, stroke)), Some(next)] = pair else {
            continue;
        };
        if *next == (*window, stroke_kinds::turned(*stroke)) {
            both_ways(&mut seen, *window, *stroke);
            turned += 1;
        }
    }
    assert!(turned > 300, "{turned} turned round");
    seen.at_least(&[("strokes", 40), ("below 0", 10)]);
}

fn stroke_of(line: &[u8]) -> Option<(Window, Stroke)> {
    match read(line)? {
        Call::LiangBarsky(window, stroke) | Call::CohenSutherland(window, stroke) => {
            Some((window, stroke))
        }
        _ => None,
    }
}

/// The stroke and the same turned round, by both rules, whether or not they are refused.
fn both_ways(seen: &mut Seen, window: Window, stroke: Stroke) {
    let forth = by_both_rules(window, stroke);
    let back = by_both_rules(window, stroke_kinds::turned(stroke));
    // A number off the table has another place in the stroke turned round.
    if forth[0] == 6 {
        assert_eq!((back[0], &back[2..]), (6, &forth[2..]));
        return;
    }
    assert_eq!(back, turned(forth), "{window:?} {stroke:?}");
    if forth[2] == 1 {
        note(seen, &halves_of(stroke, forth));
    }
}

/// The answer but for the count of shortenings, which is the one rule's own and stands before the sides.
fn by_both_rules(window: Window, stroke: Stroke) -> [i128; 13] {
    let [lb, mut cs] = ["lb", "cs"].map(|rule| numbers(&strokes::of(rule, window, stroke)));
    cs.remove(11);
    assert_eq!(lb, cs, "{window:?} {stroke:?}");
    lb.try_into().expect("13 numbers")
}

/// What is to be answered to the stroke turned round: 1 - t1 and 1 - t0, the points and the sides exchanged.
fn turned(answer: [i128; 13]) -> [i128; 13] {
    let [number, place, kept, n0, d0, n1, d1, ax, ay, bx, by, first, last] = answer;
    if kept == 0 {
        return answer;
    }
    let (m0, m1) = (d1 - n1, d0 - n0);
    [
        number, place, kept, m0, d1, m1, d0, bx, by, ax, ay, last, first,
    ]
}

/// The coordinates at which a kept stroke ends at a half. Holds every coordinate to the rule, in whole numbers:
/// at most a half from the exact one, and even where it is a half.
fn halves_of(stroke: Stroke, answer: [i128; 13]) -> Vec<[i128; 2]> {
    let [x1, y1, x2, y2] = stroke.map(i128::from);
    let [_, _, _, n0, d0, n1, d1, ax, ay, bx, by, ..] = answer;
    let mut halves = Vec::new();
    for (from, to, n, d, rounded) in [
        (x1, x2, n0, d0, ax),
        (y1, y2, n0, d0, ay),
        (x1, x2, n1, d1, bx),
        (y1, y2, n1, d1, by),
    ] {
        let exact = from * d + (to - from) * n;
        let twice_off = 2 * (rounded * d - exact).abs();
        assert!(twice_off <= d, "{rounded} is not nearest: {stroke:?}");
        if twice_off == d {
            assert!(rounded % 2 == 0, "{rounded} is not even: {stroke:?}");
            halves.push([2 * exact / d, rounded]);
        }
    }
    halves
}

/// A list of strokes turned round has the same rows but for the points, which are exchanged; they are those of `lb`.
#[test]
fn rows_of_a_list() {
    let mut random = Random::new(4);
    let mut rows = 0;
    for k in 0..2_000 {
        let touches = batches::BOTH[k % 2];
        let window = windows::window(&mut random);
        let list = batches::many(&mut random, window);
        let strokes: Vec<Stroke> = list.chunks(4).map(|s| [s[0], s[1], s[2], s[3]]).collect();
        let turned: Vec<Stroke> = strokes.iter().copied().map(stroke_kinds::turned).collect();
        let [forth, back] = [&strokes, &turned].map(|list| rows_of(touches, window, list));
        assert_eq!(forth.len(), back.len(), "{window:?} {list:?}");
        for ([index, ax, ay, bx, by], back) in forth.iter().copied().zip(back) {
            assert_eq!(back, [index, bx, by, ax, ay], "{window:?} {list:?}");
            let alone = by_both_rules(window, strokes[index as usize]);
            assert_eq!(alone[7..11], [ax, ay, bx, by], "{window:?} {list:?}");
        }
        rows += forth.len();
    }
    assert!(rows > 8_000, "{rows} rows");
}
