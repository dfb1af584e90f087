//! The cross-product method against what is reckoned by hand, and against Liang-Barsky: every small stroke, random ones, lots.

use super::seen::Seen;
use crate::answer::answer;
use crate::call::{read, Call};
use crate::cases::stroke_kinds::{self, Stroke};
use crate::cases::windows::Window;
use crate::cases::{crossings, lot, strokes, touch_kinds};
use crate::cross_product::{at_corners, clip};
use crate::kept::Kept;
use crate::point::Point;
use crate::random::Random;
use crate::rectangle::Rectangle;
use crate::table::MOST;
use crate::{engines, liang_barsky, stroke};

/// The sources' own small window, which is not a square.
const WINDOW: Window = [0, 0, 3, 4];
const MISSED: &str = "0 0 0 0 1 0 1 0 0 0 0 255 255";

/// A stroke, the cross products at the four corners, counterclockwise from the lower left one, and the answer.
type ByHand = (Stroke, [i128; 4], &'static str);

const BY_HAND: [ByHand; 14] = [
    // One corner to the left, the upper left one: in by the left side and out by the top, which a misprint makes the left side.
    (
        [-2, -2, 1, 5],
        [-8, -29, -17, 4],
        "0 0 1 2 3 6 7 0 3 1 4 0 3",
    ),
    // These two are lost where a corner on the line counts as one to its left: to a corner, and along the bottom.
    (
        [-2, -2, 3, 0],
        [6, 0, 20, 26],
        "0 0 1 1 1 1 1 3 0 3 0 2 255",
    ),
    ([-2, 0, 1, 0], [0, 0, 12, 12], "0 0 1 2 3 1 1 0 0 1 0 0 255"),
    // The latter turned round is not lost.
    (
        [1, 0, -2, 0],
        [0, 0, -12, -12],
        "0 0 1 0 1 1 3 1 0 0 0 255 0",
    ),
    // To a corner by both of its sides, and through it: the left side is the lower one.
    ([-2, -2, 0, 0], [0, -6, 2, 8], "0 0 1 1 1 1 1 0 0 0 0 0 255"),
    (
        [-2, -2, 2, 2],
        [0, -12, 4, 16],
        "0 0 1 1 2 1 1 0 0 2 2 0 255",
    ),
    // Touches at the upper right corner, the window to the left, to the right, and steeper.
    ([5, 2, 1, 6], [28, 16, 0, 12], "0 0 1 1 2 1 2 3 4 3 4 1 3"),
    (
        [1, 6, 5, 2],
        [-28, -16, 0, -12],
        "0 0 1 1 2 1 2 3 4 3 4 3 1",
    ),
    (
        [2, 6, 5, 0],
        [-30, -12, 0, -18],
        "0 0 1 1 3 1 3 3 4 3 4 3 1",
    ),
    // Past that corner, by a grid step and by a hair. Right of the window and above it have no bit in common.
    ([5, 3, 1, 6], [27, 18, 2, 11], MISSED),
    ([4, 4, 2, 5], [12, 9, 1, 4], MISSED),
    // Along the right side, from beyond one end of it to beyond the other.
    ([3, -2, 3, 6], [24, 0, 0, 24], "0 0 1 1 4 3 4 3 0 3 4 2 3"),
    // Of no length: there is no line, and the codes alone tell.
    ([3, 4, 3, 4], [0; 4], "0 0 1 0 1 1 1 3 4 3 4 255 255"),
    ([3, 5, 3, 5], [0; 4], MISSED),
];

fn crosses(window: Window, stroke: Stroke) -> [i128; 4] {
    at_corners(&Rectangle::of(window), &stroke::Stroke::of(stroke))
}

#[test]
fn strokes_by_hand() {
    for (stroke, expected, text) in BY_HAND {
        assert_eq!(crosses(WINDOW, stroke), expected, "{stroke:?}");
        let line = strokes::of("xp", WINDOW, stroke);
        assert_eq!(answer(&line), text, "{stroke:?}");
    }
    for (line, expected) in crossings::answered() {
        assert_eq!(answer(&line), expected, "{}", line.escape_ascii());
    }
}

/// A window as large as the table, by its diagonals: two corners on the line, the others as far from it as can be.
#[test]
fn the_largest_cross_products() {
    let (table, most) = ([-MOST, -MOST, MOST, MOST], 32_766 * 32_766);
    assert_eq!(crosses(table, table), [0, -most, 0, most]);
    let falling = [-MOST, MOST, MOST, -MOST];
    assert_eq!(crosses(table, falling), [-most, 0, most, 0]);
}

/// Fractions, rounded points and sides are those of Liang-Barsky; notes what kind of stroke it was.
fn held(seen: &mut Seen, window: Window, stroke: Stroke) {
    let kept = clip(window, stroke);
    let expected = liang_barsky::clip(window, stroke);
    assert_eq!(kept, expected, "{window:?} {stroke:?}");
    match kept {
        Some(kept) => note_kept(seen, crosses(window, stroke), stroke, kept),
        None => note_missed(seen, window, stroke),
    }
}

fn note_kept(seen: &mut Seen, crosses: [i128; 4], [x1, y1, x2, y2]: Stroke, kept: Kept) {
    let length = [x1, y1] != [x2, y2];
    let straight = x1 == x2 || y1 == y2;
    let on_the_line = crosses.iter().filter(|cross| **cross == 0).count();
    let cut = kept.sides != [None; 2];
    seen.count("cut", cut);
    seen.count("touches", kept.only_touches());
    seen.count("by a corner", on_the_line > 0 && !straight);
    seen.count("along a border", length && on_the_line == 2 && straight);
    seen.count("of no length", !length);
    let none_to_the_right = crosses.iter().all(|cross| *cross >= 0);
    seen.count("lost as printed", cut && none_to_the_right);
}

/// By the corners alone where the ends are out at no side in common; by such a side alone where the line meets the window.
fn note_missed(seen: &mut Seen, window: Window, stroke: Stroke) {
    let crosses = crosses(window, stroke);
    let [x1, y1, x2, y2] = stroke.map(i128::from);
    let ends = [Point::whole(x1, y1), Point::whole(x2, y2)];
    let [a, b] = ends.map(|end| Rectangle::of(window).code(end));
    let hair = crosses.iter().any(|cross| cross.abs() == 1);
    let beside = [1, -1].map(|sign| crosses.iter().all(|cross| sign * cross > 0));
    seen.count("missed by the corners", a & b == 0);
    seen.count("missed by a hair", a & b == 0 && hair);
    seen.count("missed by the codes", beside == [false; 2]);
}

/// The sources ran these 5,184 strokes by the method as printed: it loses 136 touches and 72 strokes along a border.
#[test]
fn every_small_stroke() {
    let mut seen = Seen::default();
    let points: Vec<[i32; 2]> = (-2..=5)
        .flat_map(|x| (-2..=6).map(move |y| [x, y]))
        .collect();
    for [x1, y1] in &points {
        for [x2, y2] in &points {
            held(&mut seen, WINDOW, [*x1, *y1, *x2, *y2]);
        }
    }
    assert_eq!(points.len() * points.len(), 5_184);
    assert_eq!(seen.of("lost as printed"), 136 + 72);
}

/// Of every kind that lots are made of, and between the table's ends.
#[test]
fn random_strokes() {
    let mut seen = Seen::default();
    let mut random = Random::new(12);
    for k in 0..60_000 {
        let window = touch_kinds::window(&mut random);
        let stroke = match k % 4 {
            0 => [(); 4].map(|_| random.pick(&[-MOST, 1 - MOST, 0, MOST - 1, MOST])),
            1 => touch_kinds::stroke(&mut random, window),
            _ => stroke_kinds::stroke(&mut random, window),
        };
        held(&mut seen, window, stroke);
    }
    seen.at_least(&[
        ("cut", 25_000),
        ("touches", 8_000),
        ("by a corner", 10_000),
        ("along a border", 2_500),
        ("of no length", 2_000),
        ("lost as printed", 3_500),
        ("missed by the corners", 5_000),
        ("missed by a hair", 500),
        ("missed by the codes", 1_500),
    ]);
}

/// On every line of a lot `xp` and `lb` agree, on those that are refused or no call, too; and the lot has every kind of stroke.
#[test]
fn lots() {
    for seed in 1..=5 {
        let lot = lot(seed, 7_500);
        assert_eq!(engines::agree(&lot), Ok(()));
        let mut seen = Seen::default();
        for line in &lot {
            if let Some(Call::CrossProduct(window, stroke)) = read(line) {
                let refused = liang_barsky::taken(window, stroke).is_err();
                seen.count("refused", refused);
                if !refused {
                    held(&mut seen, window, stroke);
                }
            }
        }
        seen.at_least(&[
            ("refused", 80),
            ("cut", 400),
            ("touches", 60),
            ("by a corner", 100),
            ("along a border", 35),
            ("of no length", 8),
            ("lost as printed", 30),
            ("missed by the corners", 30),
            ("missed by a hair", 8),
            ("missed by the codes", 15),
        ]);
    }
}
