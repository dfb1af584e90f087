//! Lists with strokes that only touch the window and with such as do more, worked out by hand, by `batch` and by `touches`
//! side by side. Both programs are run on their lines, and the tests hold this one to the answers.

use super::line::Answered;
use super::list_answers::Known::{self, Given, Missed, Touch};
use super::list_answers::{everywhere, exactly};
use super::windows::Window;
use super::{touch_rooms, touches_afar};

pub const SQUARE: Window = [0, 0, 10, 10];

pub fn lines() -> Vec<Vec<u8>> {
    answered().into_iter().map(|(line, _)| line).collect()
}

pub fn answered() -> Vec<Answered> {
    [
        at_every_corner(),
        elsewhere(),
        touches_afar::answered(),
        touch_rooms::answered(),
    ]
    .concat()
}

/// At the corner (0, 0) of the square; the other corners follow, since the square is the same from each of them.
fn at_every_corner() -> Vec<Answered> {
    let lists: [&[Known]; 8] = [
        &PASSING,
        &TO_A_SIDE,
        &TO_A_CORNER,
        &ALONG,
        &INSIDE,
        &NO_LENGTH,
        &BESIDE,
        &SAME_POINTS,
    ];
    lists
        .iter()
        .flat_map(|list| exactly(SQUARE, &everywhere(SQUARE, list)))
        .collect()
}

/// Past the corner, at 1/2, 1/2, 2/3, 1/3, 7/8 and 1/2.
const PASSING: [Known; 6] = [
    Touch([-5, 5, 5, -5], [0, 0]),
    Touch([-1, 1, 1, -1], [0, 0]),
    Touch([-6, 2, 3, -1], [0, 0]),
    Touch([-1, 3, 2, -6], [0, 0]),
    Touch([-7, 7, 1, -1], [0, 0]),
    Touch([-99, 1, 99, -1], [0, 0]),
];

/// At 1/1, and turned round at 0/1: level, rising, falling, from below the window and from above it.
const TO_A_SIDE: [Known; 7] = [
    Touch([-5, 5, 0, 5], [0, 5]),
    Touch([-1, 5, 0, 5], [0, 5]),
    Touch([-4, 2, 0, 7], [0, 7]),
    Touch([-4, 9, 0, 2], [0, 2]),
    Touch([-3, -2, 0, 4], [0, 4]),
    Touch([-2, 15, 0, 9], [0, 9]),
    Touch([-1, -40, 0, 1], [0, 1]),
];

const TO_A_CORNER: [Known; 6] = [
    // From where neither side's line was reached before, and from beside the window.
    Touch([-5, -5, 0, 0], [0, 0]),
    Touch([-3, -1, 0, 0], [0, 0]),
    Touch([-7, 3, 0, 0], [0, 0]),
    Touch([-2, 15, 0, 0], [0, 0]),
    // Along the line of the bottom, which is met only here.
    Touch([-5, 0, 0, 0], [0, 0]),
    Touch([-1, 0, 0, 0], [0, 0]),
];

/// More than a touch, even if it is one grid step.
const ALONG: [Known; 7] = [
    Given([-5, 0, 15, 0], [0, 0, 10, 0]),
    Given([-5, 0, 5, 0], [0, 0, 5, 0]),
    Given([-5, 0, 1, 0], [0, 0, 1, 0]),
    Given([9, 0, 12, 0], [9, 0, 10, 0]),
    Given([0, 0, 10, 0], [0, 0, 10, 0]),
    Given([0, 0, 1, 0], [0, 0, 1, 0]),
    Given([3, 0, 7, 0], [3, 0, 7, 0]),
];

/// From the border and from beyond it into the window, and from side to side.
const INSIDE: [Known; 8] = [
    Given([0, 5, 3, 6], [0, 5, 3, 6]),
    Given([0, 0, 1, 1], [0, 0, 1, 1]),
    Given([-1, 5, 1, 5], [0, 5, 1, 5]),
    Given([-1, 0, 1, 1], [0, 0, 1, 1]),
    Given([-5, -5, 1, 1], [0, 0, 1, 1]),
    Given([-1, -1, 11, 11], [0, 0, 10, 10]),
    Given([0, 1, 1, 0], [0, 1, 1, 0]),
    Given([-1, 2, 2, -1], [0, 1, 1, 0]),
];

/// On a corner, on a side and inside it is a dot that is meant; outside nothing is kept.
const NO_LENGTH: [Known; 8] = [
    Given([0, 0, 0, 0], [0, 0, 0, 0]),
    Given([0, 1, 0, 1], [0, 1, 0, 1]),
    Given([0, 5, 0, 5], [0, 5, 0, 5]),
    Given([1, 1, 1, 1], [1, 1, 1, 1]),
    Given([5, 5, 5, 5], [5, 5, 5, 5]),
    Missed([-1, 0, -1, 0]),
    Missed([-1, 5, -1, 5]),
    Missed([-1, -1, -1, -1]),
];

const BESIDE: [Known; 9] = [
    Missed([-5, 4, 4, -5]),
    // By (0, -1/2), of which the corner is the nearest even point.
    Missed([-1, 0, 1, -1]),
    Missed([-5, -1, 15, -1]),
    Missed([-5, 5, -1, 5]),
    Missed([-5, 0, -1, 0]),
    // To the line of the left side, above the window and below it.
    Missed([-5, 12, 0, 12]),
    Missed([-3, -4, 0, -1]),
    // The heights of the window are left before that line is reached; one end on the line of each side.
    Missed([-5, 5, 0, -5]),
    Missed([-1, 0, 0, -1]),
];

/// They cut the corner off. Where all of it is nearer to the corner than half a grid step both points are the corner.
const SAME_POINTS: [Known; 8] = [
    // From (0, 1/4) to (1/3, 0), from (0, 1/2) to (1/3, 0), from (0, 1/3) to (1/2, 0).
    Given([-1, 1, 3, -2], [0, 0, 0, 0]),
    Given([-1, 2, 1, -1], [0, 0, 0, 0]),
    Given([-1, 1, 2, -1], [0, 0, 0, 0]),
    // (0, 1/5) to (1/7, 0), (0, 1/13) to (1/8, 0), (0, 1/4) to (1/5, 0), (0, 1/27) to (1/5, 0).
    Given([-2, 3, 3, -4], [0, 0, 0, 0]),
    Given([-8, 5, 5, -3], [0, 0, 0, 0]),
    Given([-3, 4, 5, -6], [0, 0, 0, 0]),
    Given([-16, 3, 11, -2], [0, 0, 0, 0]),
    // From (0, 1/2) to (1, 0).
    Given([-1, 1, 3, -1], [0, 0, 1, 0]),
];

/// Other windows, among them one whose corners have odd numbers, to which no half goes.
fn elsewhere() -> Vec<Answered> {
    let mut cases = Vec::new();
    let lists: [&[Known]; 5] = [&PASSING, &TO_A_SIDE, &TO_A_CORNER, &ALONG, &NO_LENGTH];
    for list in lists {
        let there = everywhere(SQUARE, list);
        let moved: Vec<Known> = there
            .iter()
            .map(|k| k.moved(|[x, y]| [x - 7, y - 3]))
            .collect();
        cases.extend(exactly([-7, -3, 3, 7], &moved));
    }
    for (window, list) in [([1, 1, 9, 9], ODD_CORNERS), ([0, 0, 1, 1], ONE_STEP_WIDE)] {
        cases.extend(exactly(window, &everywhere(window, &list)));
    }
    cases
}

const ODD_CORNERS: [Known; 6] = [
    Touch([0, 2, 2, 0], [1, 1]),
    Touch([0, 5, 1, 5], [1, 5]),
    Given([1, 1, 1, 1], [1, 1, 1, 1]),
    // From (1, 5/4) to (4/3, 1), from (1, 3/2) to (4/3, 1), from (1, 4/3) to (3/2, 1).
    Given([0, 2, 4, -1], [1, 1, 1, 1]),
    Given([0, 3, 2, 0], [1, 2, 1, 1]),
    Given([0, 2, 3, 0], [1, 1, 2, 1]),
];

const ONE_STEP_WIDE: [Known; 6] = [
    Touch([-1, 1, 1, -1], [0, 0]),
    Touch([-1, 0, 0, 1], [0, 1]),
    Touch([-1, -1, 0, 1], [0, 1]),
    Given([0, 1, 1, 0], [0, 1, 1, 0]),
    Given([-1, 1, 3, -2], [0, 0, 0, 0]),
    Missed([-1, 0, 0, -1]),
];
