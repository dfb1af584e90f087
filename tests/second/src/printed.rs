//! The cross-product method as its source prints it, faults and all, in exact numbers, so that what it gets wrong is its own
//! doing and not rounding's: Vít Ondračka, Algoritmy ořezávání, 2006, table 1 and algorithm 4, after V. Skala, for any window.
//! docs/CROSS-PRODUCT.md compares it with the rules.

use crate::fraction::Fraction;
use crate::kept::Sides;
use crate::liang_barsky;
use crate::rectangle::Rectangle;
use crate::stroke::Stroke;

/// The bits of an end's code, in the source's order.
const LEFT: u8 = 8;
const RIGHT: u8 = 4;
const ABOVE: u8 = 2;
const BELOW: u8 = 1;

/// Each row of these tables is for a code c3 c2 c1 c0 of the four corners. The edges are 0 bottom, 1 right, 2 top, 3 left; no
/// edge is crossed in rows 0 and 15, and rows 5 and 10 no line has.
const NONE: usize = usize::MAX;
const TAB1: [usize; 16] = [NONE, 0, 1, 1, 2, NONE, 2, 2, 3, 0, NONE, 1, 3, 0, 3, NONE];
/// As table 1 has it.
const PRINTED: [usize; 16] = [NONE, 3, 0, 3, 1, NONE, 0, 3, 3, 2, NONE, 2, 1, 1, 0, NONE];
/// As the source's own program has it: row 8 names the top.
const CORRECTED: [usize; 16] = [NONE, 3, 0, 3, 1, NONE, 0, 3, 2, 2, NONE, 2, 1, 1, 0, NONE];
/// The bit of a point outside the edge that TAB1 names.
const MASK: [u8; 16] = [0, 1, 4, 4, 2, 0, 2, 2, 8, 1, 0, 4, 8, 1, 8, 0];
/// The sides of the rules, by the number of the edge.
const SIDES: [usize; 4] = [2, 1, 3, 0];

#[derive(Clone, Copy, Debug, PartialEq, Eq)]
struct Part {
    t0: Fraction,
    t1: Fraction,
    sides: Sides,
}

/// Of a line l b r t x1 y1 x2 y2: what is kept by the table as printed, a bar, what is kept by the corrected one. `?` for a
/// line that is no such numbers, or numbers that the rules refuse.
pub fn answer(line: &[u8]) -> String {
    let both = |(window, stroke)| {
        let by = |tab2| text(clip(tab2, window, stroke));
        format!("{} | {}", by(&PRINTED), by(&CORRECTED))
    };
    read(line).map_or("?".to_string(), both)
}

fn read(line: &[u8]) -> Option<([i32; 4], [i32; 4])> {
    let words = std::str::from_utf8(line).ok()?.split(' ');
    let numbers: Option<Vec<i32>> = words.map(|word| word.parse().ok()).collect();
    let [l, b, r, t, x1, y1, x2, y2] = numbers?.try_into().ok()?;
    let (window, stroke) = ([l, b, r, t], [x1, y1, x2, y2]);
    liang_barsky::taken(window, stroke).ok()?;
    Some((window, stroke))
}

fn text(part: Option<Part>) -> String {
    let Some(Part { t0, t1, sides }) = part else {
        return "missed".to_string();
    };
    let [side0, side1] = sides.map(|side| side.unwrap_or(255));
    let [from, to] = [t0, t1].map(|t| format!("{}/{}", t.num, t.den));
    format!("{from} to {to}, sides {side0} {side1}")
}

/// Algorithm 4, step by step.
fn clip(tab2: &[usize; 16], window: [i32; 4], stroke: [i32; 4]) -> Option<Part> {
    let (window, stroke) = (Rectangle::of(window), Stroke::of(stroke));
    let [a, b] = codes(&window, &stroke);
    let mut part = Part {
        t0: Fraction::ZERO,
        t1: Fraction::ONE,
        sides: [None; 2],
    };
    if a | b == 0 {
        return Some(part);
    }
    if a & b != 0 {
        return None;
    }
    let corners = corner_code(&window, &stroke);
    if corners == 0b0000 || corners == 0b1111 {
        return None;
    }
    let (i, j) = (TAB1[corners], tab2[corners]);
    let by_mask = |code: u8| if code & MASK[corners] != 0 { i } else { j };
    let [first, last] = match (a, b) {
        (0, _) => [None, Some(by_mask(b))],
        (_, 0) => [Some(by_mask(a)), None],
        _ => [Some(i), Some(j)],
    };
    if let Some(edge) = first {
        part.t0 = crossing(&window, &stroke, edge);
    }
    if let Some(edge) = last {
        part.t1 = crossing(&window, &stroke, edge);
    }
    part.sides = [first, last].map(|edge| edge.map(|edge| SIDES[edge]));
    Some(part)
}

/// The codes of the stroke's two ends. A point on the border is inside.
fn codes(window: &Rectangle, stroke: &Stroke) -> [u8; 2] {
    let Stroke { x1, y1, dx, dy } = *stroke;
    [(x1, y1), (x1 + dx, y1 + dy)].map(|(x, y)| {
        let bit = |bit, outside| if outside { bit } else { 0 };
        bit(LEFT, x < window.left)
            | bit(RIGHT, x > window.right)
            | bit(BELOW, y < window.bottom)
            | bit(ABOVE, y > window.top)
    })
}

/// The line of the stroke, F(x, y) = a x + b y + c, as the cross product of its ends: positive on its left.
fn line(stroke: &Stroke) -> [i128; 3] {
    let Stroke { x1, y1, dx, dy } = *stroke;
    cross([x1, y1, 1], [x1 + dx, y1 + dy, 1])
}

/// F at the four corners, counterclockwise from the lower left one.
fn at_corners(window: &Rectangle, stroke: &Stroke) -> [i128; 4] {
    let [a, b, c] = line(stroke);
    let [l, r, low, top] = [window.left, window.right, window.bottom, window.top];
    [(l, low), (r, low), (r, top), (l, top)].map(|(x, y)| a * x + b * y + c)
}

/// Bit k is set where F is not negative at corner k: here a corner on the line counts as left of it.
fn corner_code(window: &Rectangle, stroke: &Stroke) -> usize {
    let values = at_corners(window, stroke);
    (0..4).map(|k| usize::from(values[k] >= 0) << k).sum()
}

/// Where the point lies on the stroke's way that the line has in common with that of an edge. Every row of the tables names
/// edges whose two corners have different bits, so no named edge is parallel to the line and w is never 0.
fn crossing(window: &Rectangle, stroke: &Stroke, edge: usize) -> Fraction {
    let edges = [
        [0, 1, -window.bottom],
        [-1, 0, window.right],
        [0, -1, window.top],
        [1, 0, -window.left],
    ];
    let [x, y, w] = cross(line(stroke), edges[edge]);
    let Stroke { x1, y1, dx, dy } = *stroke;
    if dx != 0 {
        Fraction::new(x - x1 * w, dx * w)
    } else {
        Fraction::new(y - y1 * w, dy * w)
    }
}

fn cross([a, b, c]: [i128; 3], [d, e, f]: [i128; 3]) -> [i128; 3] {
    [b * f - c * e, c * d - a * f, a * e - b * d]
}

#[cfg(test)]
mod tests {
    use super::*;

    /// Window 0 0 10 10: the stroke, F at the four corners, the line of the answer. All reckoned by hand.
    const BY_HAND: [(&str, [i128; 4], &str); 10] = [
        (
            "-5 5 15 5",
            [-100, -100, 100, 100],
            "1/4 to 3/4, sides 0 1 | 1/4 to 3/4, sides 0 1",
        ),
        ("-5 5 5 -5", [0, 100, 200, 100], "missed | missed"),
        (
            "5 -5 -5 5",
            [0, -100, -200, -100],
            "1/2 to 1/2, sides 2 0 | 1/2 to 1/2, sides 2 0",
        ),
        ("-5 0 15 0", [0, 0, 200, 200], "missed | missed"),
        (
            "15 0 -5 0",
            [0, 0, -200, -200],
            "1/4 to 3/4, sides 1 0 | 1/4 to 3/4, sides 1 0",
        ),
        (
            "-5 -5 15 15",
            [0, -200, 0, 200],
            "1/4 to 3/4, sides 2 1 | 1/4 to 3/4, sides 2 1",
        ),
        (
            "15 15 -5 -5",
            [0, 200, 0, -200],
            "1/4 to 3/4, sides 3 0 | 1/4 to 3/4, sides 3 0",
        ),
        (
            "-2 4 4 16",
            [-48, -168, -108, 12],
            "1/3 to 1/3, sides 0 0 | 1/3 to 1/2, sides 0 3",
        ),
        (
            "1 9 3 13",
            [-14, -54, -34, 6],
            "0/1 to -1/2, sides 255 0 | 0/1 to 1/4, sides 255 3",
        ),
        (
            "1 2 3 4",
            [-2, -22, -2, 18],
            "0/1 to 1/1, sides 255 255 | 0/1 to 1/1, sides 255 255",
        ),
    ];

    #[test]
    fn strokes_by_hand() {
        for (stroke, values, expected) in BY_HAND {
            let line = format!("0 0 10 10 {stroke}");
            assert_eq!(answer(line.as_bytes()), expected, "{line}");
            let (window, stroke) = read(line.as_bytes()).expect("eight numbers");
            let (window, stroke) = (Rectangle::of(window), Stroke::of(stroke));
            assert_eq!(at_corners(&window, &stroke), values, "{line}");
        }
    }

    #[test]
    fn what_is_no_stroke() {
        for line in [
            "",
            "0 0 10 10 1 2 3",
            "0 0 10 10 1 2 3 x",
            "10 0 0 10 1 2 3 4",
        ] {
            assert_eq!(answer(line.as_bytes()), "?", "{line}");
        }
    }

    /// The picture that the source works out: corners 1110, the end outside below and right, so the bottom is crossed.
    #[test]
    fn the_source_s_own_example() {
        let (window, stroke) = (Rectangle::of([-1, -1, 1, 1]), Stroke::of([-1, 0, 2, -6]));
        assert_eq!(corner_code(&window, &stroke), 0b1110);
        assert_eq!(codes(&window, &stroke), [0, 0b0101]);
        assert_eq!(
            answer(b"-1 -1 1 1 -1 0 2 -6"),
            "0/1 to 1/6, sides 255 2 | 0/1 to 1/6, sides 255 2"
        );
    }

    const WINDOW: [i32; 4] = [0, 0, 3, 4];

    /// Every stroke with x from -2 to 5 and y from -2 to 6.
    fn strokes() -> impl Iterator<Item = [i32; 4]> {
        let points = || (-2..=5).flat_map(|x| (-2..=6).map(move |y| (x, y)));
        points().flat_map(move |(x1, y1)| points().map(move |(x2, y2)| [x1, y1, x2, y2]))
    }

    fn by_the_rules(stroke: [i32; 4]) -> Option<Part> {
        let kept = liang_barsky::clip(WINDOW, stroke)?;
        Some(Part {
            t0: kept.t0,
            t1: kept.t1,
            sides: kept.sides,
        })
    }

    /// Of these strokes: as the rules have them, lost touches, lost strokes along a border, shrunk to one point, ending before
    /// they start, wrong in a side only. Drawn the other way round, a lost stroke is by the corrected table as the rules have it.
    fn counts(tab2: &[usize; 16]) -> [usize; 6] {
        let mut counts = [0; 6];
        for stroke in strokes() {
            let (printed, rules) = (clip(tab2, WINDOW, stroke), by_the_rules(stroke));
            let kind = match (printed, rules) {
                _ if printed == rules => 0,
                (None, Some(part)) => {
                    let [x1, y1, x2, y2] = stroke;
                    let turned = [x2, y2, x1, y1];
                    assert_eq!(clip(&CORRECTED, WINDOW, turned), by_the_rules(turned));
                    let upright = x1 == x2 && [0, 3].contains(&x1);
                    let level = y1 == y2 && [0, 4].contains(&y1);
                    let touches = part.t0 == part.t1;
                    assert!(touches || upright || level, "{stroke:?}");
                    if touches {
                        1
                    } else {
                        2
                    }
                }
                (Some(a), Some(b)) if (a.t0, a.t1) == (b.t0, b.t1) => 5,
                (Some(a), Some(b)) if a.t0 == a.t1 && b.t0 < b.t1 => 3,
                (Some(a), Some(_)) if a.t1 < a.t0 => 4,
                _ => panic!("{stroke:?}: {printed:?}, {rules:?}"),
            };
            counts[kind] += 1;
        }
        counts
    }

    /// The numbers that docs/CROSS-PRODUCT.md tells.
    #[test]
    fn how_many_differ() {
        assert_eq!(strokes().count(), 5184);
        assert_eq!(counts(&PRINTED), [4752, 136, 72, 109, 21, 94]);
        assert_eq!(counts(&CORRECTED), [4900, 136, 72, 0, 0, 76]);
    }
}
