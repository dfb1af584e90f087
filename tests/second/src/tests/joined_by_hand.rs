//! Groups of lines on neighbouring strips, worked out by hand.

use crate::answer::answer;
use crate::cases::joined;
use crate::cases::list_answers::filled;
use crate::cases::neighbours::{Asked, Group, Neighbours};
use crate::cases::stroke_kinds::Stroke;
use crate::cases::windows::Window;

/// The answer up to the points, the count of shortenings, the sides.
type Worked = (&'static str, u8, &'static str);

const SQUARE: Window = [0, 0, 10, 10];
const WHOLE_TABLE: Window = [-16_383, -16_383, 16_383, 16_383];
const MISSED: &str = "0 0 0 0 1 0 1 0 0 0 0";
/// Neither end is fixed by a side.
const OWN: &str = "255 255";

/// A stroke, and what is kept of it by the left strip, by the right one and by the joined window.
type OfThree = (Stroke, [Worked; 3]);

/// Of the square, parted at x = 5.
const ON_THE_SQUARE: [OfThree; 17] = [
    // Crossing at (5, 5), either way. A and D.
    (
        [-5, 5, 15, 5],
        [
            ("0 0 1 1 4 1 2 0 5 5 5", 2, "0 1"),
            ("0 0 1 1 2 3 4 5 5 10 5", 2, "0 1"),
            ("0 0 1 1 4 3 4 0 5 10 5", 2, "0 1"),
        ],
    ),
    (
        [15, 5, -5, 5],
        [
            ("0 0 1 1 2 3 4 5 5 0 5", 2, "1 0"),
            ("0 0 1 1 4 1 2 10 5 5 5", 2, "1 0"),
            ("0 0 1 1 4 3 4 10 5 0 5", 2, "1 0"),
        ],
    ),
    (
        [-1, 24, 11, -14],
        [
            ("0 0 1 7 19 1 2 3 10 5 5", 3, "3 1"),
            ("0 0 1 1 2 12 19 5 5 7 0", 3, "0 2"),
            ("0 0 1 7 19 12 19 3 10 7 0", 4, "3 2"),
        ],
    ),
    // At (5, 1/2), and leftward at (5, 3/2).
    (
        [4, 0, 6, 1],
        [
            ("0 0 1 0 1 1 2 4 0 5 0", 1, "255 1"),
            ("0 0 1 1 2 1 1 5 0 6 1", 1, "0 255"),
            ("0 0 1 0 1 1 1 4 0 6 1", 0, OWN),
        ],
    ),
    (
        [6, 2, 4, 1],
        [
            ("0 0 1 1 2 1 1 5 2 4 1", 1, "1 255"),
            ("0 0 1 0 1 1 2 6 2 5 2", 1, "255 0"),
            ("0 0 1 0 1 1 1 6 2 4 1", 0, OWN),
        ],
    ),
    // Through (5, 0) into the right strip, leftward through (5, 10) into the left one.
    (
        [3, -2, 8, 3],
        [
            ("0 0 1 2 5 2 5 5 0 5 0", 2, "2 1"),
            ("0 0 1 2 5 1 1 5 0 8 3", 1, "0 255"),
            ("0 0 1 2 5 1 1 5 0 8 3", 1, "2 255"),
        ],
    ),
    (
        [8, 13, 2, 7],
        [
            ("0 0 1 1 2 1 1 5 10 2 7", 1, "1 255"),
            ("0 0 1 1 2 1 2 5 10 5 10", 2, "3 0"),
            ("0 0 1 1 2 1 1 5 10 2 7", 1, "3 255"),
        ],
    ),
    // From below to (5, 0), from the left to (5, 5).
    (
        [3, -4, 5, 0],
        [
            ("0 0 1 1 1 1 1 5 0 5 0", 1, "2 255"),
            ("0 0 1 1 1 1 1 5 0 5 0", 1, "0 255"),
            ("0 0 1 1 1 1 1 5 0 5 0", 1, "2 255"),
        ],
    ),
    (
        [-5, 5, 5, 5],
        [
            ("0 0 1 1 2 1 1 0 5 5 5", 1, "0 255"),
            ("0 0 1 1 1 1 1 5 5 5 5", 1, "0 255"),
            ("0 0 1 1 2 1 1 0 5 5 5", 1, "0 255"),
        ],
    ),
    // Along the border: over both ends, down to its upper end, and not as far.
    ([5, -5, 5, 15], [("0 0 1 1 4 3 4 5 0 5 10", 2, "2 3"); 3]),
    ([5, 15, 5, 10], [("0 0 1 1 1 1 1 5 10 5 10", 1, "3 255"); 3]),
    ([5, 15, 5, 11], [(MISSED, 0, OWN); 3]),
    // Past (5, 10) at (5, 21/2): the left strip is left at (14/3, 10). C is missed.
    (
        [4, 9, 6, 12],
        [
            ("0 0 1 0 1 1 3 4 9 5 10", 2, "255 3"),
            (MISSED, 1, OWN),
            ("0 0 1 0 1 1 3 4 9 5 10", 1, "255 3"),
        ],
    ),
    (
        [-5, 4, 4, -5],
        [(MISSED, 1, OWN), (MISSED, 0, OWN), (MISSED, 1, OWN)],
    ),
    // Of no length, on the border and in the left strip; refused.
    ([5, 5, 5, 5], [("0 0 1 0 1 1 1 5 5 5 5", 0, OWN); 3]),
    (
        [2, 2, 2, 2],
        [
            ("0 0 1 0 1 1 1 2 2 2 2", 0, OWN),
            (MISSED, 0, OWN),
            ("0 0 1 0 1 1 1 2 2 2 2", 0, OWN),
        ],
    ),
    ([5, 5, 5, 16_384], [("6 3 0 0 1 0 1 0 0 0 0", 0, OWN); 3]),
];

/// The joined window, the border, and a stroke.
const AFAR: [(Window, i32, OfThree); 4] = [
    // Through the whole table, past a strip one step wide, and leftward at (0, 32765/2).
    (
        WHOLE_TABLE,
        -16_382,
        (
            WHOLE_TABLE,
            [
                ("0 0 1 0 1 1 32766 -16383 -16383 -16382 -16382", 1, "255 1"),
                ("0 0 1 1 32766 1 1 -16382 -16382 16383 16383", 1, "0 255"),
                ("0 0 1 0 1 1 1 -16383 -16383 16383 16383", 0, OWN),
            ],
        ),
    ),
    (
        WHOLE_TABLE,
        0,
        (
            [16_383, 16_382, -16_383, 16_383],
            [
                ("0 0 1 1 2 1 1 0 16382 -16383 16383", 1, "1 255"),
                ("0 0 1 0 1 1 2 16383 16382 0 16382", 1, "255 0"),
                ("0 0 1 0 1 1 1 16383 16382 -16383 16383", 0, OWN),
            ],
        ),
    ),
    // Through (0, 0) and then (1, 1), the upper end of the border.
    (
        [0, 0, 2, 1],
        1,
        (
            [-1, -1, 2, 2],
            [
                ("0 0 1 1 3 2 3 0 0 1 1", 2, "0 1"),
                ("0 0 1 2 3 2 3 1 1 1 1", 2, "0 3"),
                ("0 0 1 1 3 2 3 0 0 1 1", 2, "0 3"),
            ],
        ),
    ),
    // Over (0, 0) by a hair: at (0, 1/32765), and then (1/32763, 0). 16382 * 32765 - 16383 * 32763 = 1.
    (
        [-10, 0, 10, 10],
        0,
        (
            [-16_383, 16_382, 16_382, -16_381],
            [
                ("0 0 1 16373 32765 16383 32765 -10 10 0 0", 2, "0 1"),
                ("0 0 1 16383 32765 16382 32763 0 0 0 0", 3, "0 2"),
                ("0 0 1 16373 32765 16382 32763 -10 10 0 0", 3, "0 2"),
            ],
        ),
    ),
];

fn group(joined: Window, border: i32, asked: Asked) -> Group {
    let strips = Neighbours { joined, border };
    Group { strips, asked }
}

/// The group is one of the fixed ones, and its lines are answered so.
fn expect_fixed(group: &Group, answers: &[String]) {
    let (lines, fixed) = (group.lines(), joined::fixed());
    let is_fixed = fixed.windows(lines.len()).any(|group| group == lines);
    assert!(is_fixed, "not a fixed group: {group:?}");
    let given: Vec<String> = lines.iter().map(|line| answer(line)).collect();
    assert_eq!(given, answers, "{group:?}");
}

#[test]
fn strokes_worked_out_by_hand() {
    let on_the_square = ON_THE_SQUARE.map(|of_three| (SQUARE, 5, of_three));
    for (joined, border, (stroke, worked)) in [&on_the_square[..], &AFAR].concat() {
        let by_lb = worked.map(|(common, _, sides)| format!("{common} {sides}"));
        let by_cs = worked.map(|(common, count, sides)| format!("{common} {count} {sides}"));
        let group = group(joined, border, Asked::Stroke(stroke));
        expect_fixed(&group, &[by_lb, by_cs].concat());
    }
}

/// The rows of a list, in this much room.
fn given(room: usize, rows: &[[i32; 5]]) -> String {
    let written = rows.concat();
    filled(&[0, 0, written.len() as i32], &written, room)
}

/// Each stroke is in one strip alone, and in the joined window.
#[test]
fn a_list_worked_out_by_hand() {
    let list = [
        [-1, 0, 1, 1],
        [1, 1, -1, 0],
        [2, 3, 4, 9],
        [4, 2, 4, 8],
        [6, 15, 6, -5],
        [3, 9, 9, 15],
        [4, 9, 6, 12],
        [4, 10, 6, 11],
        [6, 1, 4, -2],
        [4, -1, 6, 0],
    ];
    // The last of the left strip only touches, at (4, 10), and the last of the right one at (6, 0).
    let left = [
        [0, 0, 0, 1, 1],
        [1, 1, 1, 0, 0],
        [2, 2, 3, 4, 9],
        [3, 4, 2, 4, 8],
        [5, 3, 9, 4, 10],
        [6, 4, 9, 5, 10],
        [7, 4, 10, 4, 10],
    ];
    let right = [[4, 6, 10, 6, 0], [8, 6, 1, 5, 0], [9, 6, 0, 6, 0]];
    let mut joined = [&left[..], &right].concat();
    joined.sort();
    let with_touches = [&left[..], &right, &joined].map(|rows| given(51, rows));
    let no_touch = |rows: &[[i32; 5]]| -> Vec<[i32; 5]> {
        let rows = rows.iter().filter(|row| ![7, 9].contains(&row[0]));
        rows.copied().collect()
    };
    let without = [&left[..], &right, &joined].map(|rows| given(51, &no_touch(rows)));
    let asked = Asked::List(51, list.concat());
    expect_fixed(&group(SQUARE, 5, asked), &[with_touches, without].concat());
}

/// A touch at (5, 0), no stroke at all, and a list whose number 8 is off the table.
#[test]
fn lists_answered_alike() {
    let off = vec![-5, 5, 15, 5, -1, 24, 11, -14, 16_384, 5, 15, 5];
    let refused = filled(&[6, 8, 0], &[], 10);
    for (room, list, with_touches, without) in [
        (
            5,
            vec![3, -4, 5, 0],
            given(5, &[[0, 5, 0, 5, 0]]),
            given(5, &[]),
        ),
        (0, vec![], given(0, &[]), given(0, &[])),
        (10, off, refused.clone(), refused),
    ] {
        let answers = [with_touches, without].map(|answer| [(); 3].map(|_| answer.clone()));
        let answers = answers.concat();
        expect_fixed(&group(SQUARE, 5, Asked::List(room, list)), &answers);
    }
}
