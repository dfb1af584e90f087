//! What lists with strokes that only touch need, and what is refused in them, worked out by hand.

use super::line::Answered;
use super::list_answers::Known::{self, Given, Missed, Touch};
use super::list_answers::{by_both_names, refused};
use super::touches::SQUARE;

pub fn answered() -> Vec<Answered> {
    [alone(), rooms(), refusals()].concat()
}

/// Touches first, last, between and in a row, a dot that is meant, and a piece that is shorter than a grid step.
const IN_TURN: [Known; 8] = [
    Touch([-5, 5, 5, -5], [0, 0]),
    Given([-5, 5, 15, 5], [0, 5, 10, 5]),
    Touch([15, 5, 5, -5], [10, 0]),
    Touch([5, 15, 5, 10], [5, 10]),
    Given([10, 10, 10, 10], [10, 10, 10, 10]),
    Missed([-5, 4, 4, -5]),
    Given([-1, 1, 3, -2], [0, 0, 0, 0]),
    Touch([10, 0, 12, 1], [10, 0]),
];

/// Each stroke in a list of its own, with the room for one; with less where it only touches.
fn alone() -> Vec<Answered> {
    let others = [
        Touch([-5, 0, 0, 0], [0, 0]),
        Given([-5, 0, 15, 0], [0, 0, 10, 0]),
        Given([0, 0, 0, 0], [0, 0, 0, 0]),
        Missed([-1, 0, -1, 0]),
    ];
    let mut cases = Vec::new();
    for known in IN_TURN.iter().chain(&others) {
        cases.extend(by_both_names(5, SQUARE, &[*known]));
        if let Touch(..) = known {
            cases.extend(by_both_names(4, SQUARE, &[known.turned()]));
            cases.extend(by_both_names(0, SQUARE, &[known.turned()]));
        }
    }
    cases
}

/// Exact, one short and one too long by either name's need; a list of touches alone needs nothing unless they are asked for.
fn rooms() -> Vec<Answered> {
    let [a, b, c, d, e, f, g, h] = IN_TURN;
    let lists: [(&[Known], &[usize]); 7] = [
        (&IN_TURN, &[0, 1, 14, 15, 16, 34, 35, 36]),
        (&[a, c, d, h], &[0, 1, 5, 19, 20, 23]),
        (&[b, e, g], &[0, 14, 15, 18]),
        (&[a, b], &[4, 5, 9, 10]),
        (&[b, a], &[4, 5, 9, 10]),
        (&[f, f], &[0, 2]),
        (&[], &[0, 2]),
    ];
    let mut cases = Vec::new();
    for (list, rooms) in lists {
        for room in rooms {
            cases.extend(by_both_names(*room, SQUARE, list));
        }
    }
    cases
}

/// Of strokes that only touch, each refusal alone and with those above it, in rooms that would do and in such that would not.
fn refusals() -> Vec<Answered> {
    let two = [-5, 5, 5, -5, 15, 5, 5, -5];
    let with = |places: &[(usize, i32)]| {
        let mut list = two;
        places.iter().for_each(|(place, n)| list[*place] = *n);
        list
    };
    let off = with(&[(5, 16_384), (7, i32::MIN)]);
    let area = [
        [0, 10, 10, 10],
        [10, 0, 10, 10],
        [5, 0, 4, 10],
        [0, 0, 0, 0],
    ];
    let mut cases = vec![
        refused(12, SQUARE, &two[..7], [5, 0]),
        refused(0, SQUARE, &two[..1], [5, 0]),
        refused(9, SQUARE, &[&two[..], &two[..3]].concat(), [5, 0]),
        refused(12, SQUARE, &off, [6, 5]),
        refused(0, SQUARE, &with(&[(0, -16_384)]), [6, 0]),
        refused(0, SQUARE, &with(&[(7, i32::MAX)]), [6, 7]),
        refused(9, SQUARE, &off[..6], [5, 0]),
        refused(10, [0, 16_384, 10, 10], &two, [2, 1]),
        refused(0, [0, 0, 10, i32::MIN], &off[..7], [2, 3]),
        // Off the table and without area.
        refused(9, [10, 0, 0, -16_384], &off, [2, 3]),
        refused(9, [-16_384, 0, -16_384, 10], &two[..7], [2, 0]),
    ];
    for (window, list) in area.iter().zip([&two[..], &off, &two[..5], &off[..7]]) {
        cases.push(refused(9, *window, list, [3, 0]));
    }
    cases.concat()
}
