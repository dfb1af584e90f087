//! The worked examples, A to M, and the sources' vectors, with the answers as printed.

use super::expect;
use crate::answer::answer;
use crate::cases::by_hand;

const MISSED: &str = "0 0 0 0 1 0 1 0 0 0 0";
/// Neither end is fixed by a side.
const OWN: &str = "255 255";

/// By every rule: window, stroke, the answer up to the points, the count of shortenings, the sides, and the edges where
/// the window is given as its corners: 0 the bottom, 1 the right side, 2 the top, 3 the left side.
const STROKES: [(&str, &str, &str, u8, &str, &str); 19] = [
    (
        "0 0 10 10",
        "-5 5 15 5",
        "0 0 1 1 4 3 4 0 5 10 5",
        2,
        "0 1",
        "3 1",
    ),
    (
        "0 0 10 10",
        "-5 5 5 -5",
        "0 0 1 1 2 1 2 0 0 0 0",
        2,
        "0 2",
        "3 0",
    ),
    ("0 0 10 10", "-5 4 4 -5", MISSED, 1, OWN, OWN),
    (
        "0 0 10 10",
        "-1 24 11 -14",
        "0 0 1 7 19 12 19 3 10 7 0",
        4,
        "3 2",
        "2 0",
    ),
    (
        "0 0 10 10",
        "-1 0 1 1",
        "0 0 1 1 2 1 1 0 0 1 1",
        1,
        "0 255",
        "3 255",
    ),
    (
        "0 0 10 10",
        "1 1 -1 0",
        "0 0 1 0 1 1 2 1 1 0 0",
        1,
        "255 0",
        "255 3",
    ),
    (
        "0 0 10 10",
        "-1 1 1 2",
        "0 0 1 1 2 1 1 0 2 1 2",
        1,
        "0 255",
        "3 255",
    ),
    (
        "0 0 10 10",
        "1 2 -1 1",
        "0 0 1 0 1 1 2 1 2 0 2",
        1,
        "255 0",
        "255 3",
    ),
    (
        "0 0 10 10",
        "10 10 10 10",
        "0 0 1 0 1 1 1 10 10 10 10",
        0,
        OWN,
        OWN,
    ),
    ("0 0 10 10", "11 10 11 10", MISSED, 0, OWN, OWN),
    ("0 0 10 10", "5 20 40 5", MISSED, 1, OWN, OWN),
    (
        "5 5 10 10",
        "4 6 6 4",
        "0 0 1 1 2 1 2 5 5 5 5",
        2,
        "0 2",
        "3 0",
    ),
    ("0 0 10 10", "-1 11 11 11", MISSED, 0, OWN, OWN),
    (
        "0 0 3 4",
        "-2 -2 1 5",
        "0 0 1 2 3 6 7 0 3 1 4",
        2,
        "0 3",
        "3 2",
    ),
    (
        "0 0 3 4",
        "-2 -2 3 0",
        "0 0 1 1 1 1 1 3 0 3 0",
        2,
        "2 255",
        "0 255",
    ),
    (
        "0 0 3 4",
        "-2 0 1 0",
        "0 0 1 2 3 1 1 0 0 1 0",
        1,
        "0 255",
        "3 255",
    ),
    (
        "0 0 3 4",
        "-2 -2 0 0",
        "0 0 1 1 1 1 1 0 0 0 0",
        1,
        "0 255",
        "0 255",
    ),
    ("0 0 4 4", "5 -4 -4 0", MISSED, 2, OWN, OWN),
    ("0 0 4 4", "5 0 -4 -4", MISSED, 1, OWN, OWN),
];

/// A rectangle given as its corners keeps the same fractions; its sides have other numbers.
#[test]
fn strokes_by_every_rule() {
    for (window, stroke, common, count, sides, edges) in STROKES {
        let lb = format!("lb {window} {stroke}");
        let cs = format!("cs {window} {stroke}");
        let cb = format!("cb {} {stroke}", as_corners(window));
        let fractions: Vec<&str> = common.split(' ').take(7).collect();
        expect(&[
            (&lb, &format!("{common} {sides}")),
            (&cs, &format!("{common} {count} {sides}")),
            (&cb, &format!("{} {edges}", fractions.join(" "))),
        ]);
    }
}

fn as_corners(window: &str) -> String {
    let sides: Vec<&str> = window.split(' ').collect();
    let [l, b, r, t] = [0, 1, 2, 3].map(|k| sides[k]);
    format!("8 {l} {b} {r} {b} {r} {t} {l} {t}")
}

#[test]
fn corner_windows() {
    expect(&by_hand::CORNER_WINDOWS);
}

/// Room, corners, answer.
const OUTLINES: [(usize, &str, &str); 5] = [
    (
        32,
        "8 5 -2 12 5 5 12 -2 5",
        "0 0 32 3 1 0 1 7 1 0 1 10 1 3 1 10 1 7 1 7 1 10 1 3 1 10 1 0 1 7 1 0 1 3 1",
    ),
    (12, "6 -1 0 2 1 -1 2", "0 0 12 0 1 1 3 2 1 1 1 0 1 5 3"),
    (
        16,
        "6 -5 0 15 0 5 20",
        "0 0 16 0 1 0 1 10 1 0 1 10 1 10 1 0 1 10 1",
    ),
    (0, "6 -4 0 0 2 -4 4", "0 0 0"),
    (0, "10 0 3 -2 -3 3 1 -3 1 2 -3", "7 0 0"),
];

#[test]
fn outlines_in_every_order() {
    for (room, corners, expected) in OUTLINES {
        for order in 0..24 {
            let line = format!("outline {order} {room} 0 0 10 10 {corners}");
            assert_eq!(answer(line.as_bytes()), expected, "{line}");
        }
    }
    expect(&[("outline 24 0 0 0 10 10 6 -4 0 0 2 -4 4", "4 0 0")]);
}

#[test]
fn intake_and_back() {
    expect(&by_hand::MILLIMETRES);
}

#[test]
fn the_drawing_of_forty_bytes() {
    let file = "000000240100000000000000003ea000003ea00000\
                4dbe2000003e2000004c3ef000003e2000005a";
    assert_eq!(file.len(), 80);
    expect(&[
        (
            &format!("draw 9 {file}"),
            "0 0 0 0 10 10 2 -5 5 15 5 15 5 -5 5 7000008",
        ),
        (&format!("draw 1 {file}"), "8 8 0 0 0 0 0 7000000"),
        (&format!("draw 1 {}", &file[..78]), "11 0 0 0 0 0 0 7000000"),
        ("draw 1 -", "11 0 0 0 0 0 0 7000000"),
    ]);
}
