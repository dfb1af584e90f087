//! Strokes as long as the table that only touch the window, or nearly do, worked out by hand, and windows at the table's ends.

use super::line::Answered;
use super::list_answers::Known::{self, Given, Missed, Touch};
use super::list_answers::{both_ways, everywhere, exactly};
use super::touches::SQUARE;
use crate::table::MOST;

pub fn answered() -> Vec<Answered> {
    [by_a_hair(), ends_of_the_table()].concat()
}

/// Each also with x and y exchanged, and all of that both ways round.
fn both_axes(list: &[Known]) -> Vec<Known> {
    let exchanged = list.iter().map(|known| known.moved(|[x, y]| [y, x]));
    both_ways(&list.iter().copied().chain(exchanged).collect::<Vec<_>>())
}

/// Past a corner so closely that only exact fractions tell on which side of it, or whether through it.
fn by_a_hair() -> Vec<Answered> {
    let mut cases = Vec::new();
    let list = both_axes(&HAIRS);
    // The window to each side of (0, 0), its corner.
    for (window, [across, up]) in [
        (SQUARE, [1, 1]),
        ([-10, 0, 0, 10], [-1, 1]),
        ([0, -10, 10, 0], [1, -1]),
        ([-10, -10, 0, 0], [-1, -1]),
    ] {
        let mirrored = list.iter().map(|k| k.moved(|[x, y]| [across * x, up * y]));
        cases.extend(exactly(window, &mirrored.collect::<Vec<_>>()));
    }
    cases.extend(exactly([-5_000, -3_000, 7_000, 9_000], &both_ways(&FAR)));
    cases
}

/// Those that are given have t0 = 16383/32765 and t1 = 16382/32763, and t0 = 16382/32765 and t1 = 1/2.
const HAIRS: [Known; 6] = [
    Touch([-16_383, 16_383, 16_383, -16_383], [0, 0]),
    Given([-16_383, 16_382, 16_382, -16_381], [0, 0, 0, 0]),
    Missed([-16_382, 16_381, 16_383, -16_382]),
    Touch([-16_383, 1, 16_383, -1], [0, 0]),
    Given([-16_382, 1, 16_383, -1], [0, 0, 0, 0]),
    Missed([-16_383, 1, 16_382, -1]),
];

const FAR: [Known; 6] = [
    // From the corner, at the right and the bottom: 9383 and 11999 there, then -9383 and -11999, -9817 and -12554,
    // -8949 and -11444, where 11999 * 9817 - 9383 * 12554 = 1 and 11999 * 8949 - 9383 * 11444 = -1.
    Touch([16_383, 8_999, -2_383, -14_999], [7_000, -3_000]),
    Given(
        [16_383, 8_999, -2_817, -15_554],
        [7_000, -3_000, 7_000, -3_000],
    ),
    Missed([16_383, 8_999, -1_949, -14_444]),
    // At the left and the top: 11383 and 7383; 7383 * 8671 - 11383 * 5624 = 1, 7383 * 2712 - 11383 * 1759 = -1.
    Touch([-16_383, 1_617, 6_383, 16_383], [-5_000, 9_000]),
    Given(
        [-16_383, 1_617, 3_671, 14_624],
        [-5_000, 9_000, -5_000, 9_000],
    ),
    Missed([-16_383, 1_617, -2_288, 10_759]),
];

/// One step from the table's ends, the whole table, and the step at its corner.
fn ends_of_the_table() -> Vec<Answered> {
    let (near, whole) = (
        [-16_382, -16_382, 16_382, 16_382],
        [-MOST, -MOST, MOST, MOST],
    );
    let corner = [16_382, 16_382, MOST, MOST];
    [
        exactly(near, &everywhere(near, &ONE_STEP_FROM_THE_ENDS)),
        exactly(whole, &everywhere(whole, &ON_THE_WHOLE_TABLE)),
        exactly(corner, &both_axes(&AT_A_CORNER_OF_THE_TABLE)),
    ]
    .concat()
}

const ONE_STEP_FROM_THE_ENDS: [Known; 12] = [
    Touch([-16_383, -16_381, -16_381, -16_383], [-16_382, -16_382]),
    Touch([-16_383, -16_383, -16_382, -16_382], [-16_382, -16_382]),
    Touch([-16_383, 16_383, -16_382, -16_382], [-16_382, -16_382]),
    Touch([-16_383, -16_382, -16_382, -16_382], [-16_382, -16_382]),
    Touch([-16_383, 0, -16_382, 0], [-16_382, 0]),
    Touch([-16_383, 16_383, -16_382, 16_381], [-16_382, 16_381]),
    Given(
        [-16_383, -16_382, 16_383, -16_382],
        [-16_382, -16_382, 16_382, -16_382],
    ),
    Given(
        [-16_383, -16_383, 16_383, 16_383],
        [-16_382, -16_382, 16_382, 16_382],
    ),
    // From a third of a step above the corner to half a step beside it.
    Given([-16_383, -16_381, -16_380, -16_383], [-16_382; 4]),
    Given([-16_382; 4], [-16_382; 4]),
    Missed([-16_383, -16_382, -16_383, -16_382]),
    Missed([-16_383, -16_383, 16_383, -16_383]),
];

/// Nothing is outside, so nothing only touches.
const ON_THE_WHOLE_TABLE: [Known; 4] = [
    Given([-MOST; 4], [-MOST; 4]),
    Given([-MOST, -MOST, MOST, -MOST], [-MOST, -MOST, MOST, -MOST]),
    Given([-MOST, -MOST, MOST, MOST], [-MOST, -MOST, MOST, MOST]),
    Given([-MOST, 5, 1 - MOST, 5], [-MOST, 5, 1 - MOST, 5]),
];

const AT_A_CORNER_OF_THE_TABLE: [Known; 9] = [
    Touch([-MOST, -MOST, 16_382, 16_382], [16_382, 16_382]),
    Touch([-MOST, 16_382, 16_382, 16_382], [16_382, 16_382]),
    Touch([-MOST, MOST, 16_382, MOST], [16_382, MOST]),
    Touch([-MOST, -MOST, 16_382, MOST], [16_382, MOST]),
    Touch([16_381, 16_383, 16_383, 16_381], [16_382, 16_382]),
    Given([-MOST, -MOST, MOST, MOST], [16_382, 16_382, MOST, MOST]),
    Given(
        [-MOST, 16_382, MOST, 16_382],
        [16_382, 16_382, MOST, 16_382],
    ),
    Given([MOST; 4], [MOST; 4]),
    Missed([16_381, 16_382, 16_382, 16_381]),
];
