//! Strokes against rectangles: `lb` and `cs`.

use super::corner_windows;
use super::line::Line;
use super::numbers::{anywhere, spoil};
use super::stroke_kinds::{stroke, turned, Stroke};
use super::windows::{self, Window};
use crate::call::{read, Call};
use crate::random::Random;

/// Every refusal alone and several at once.
pub fn fixed() -> Vec<Vec<u8>> {
    let windows: [Window; 12] = [
        [0, 0, 10, 10],
        [-16_383, -16_383, 16_383, 16_383],
        [16_384, 0, 10, 10],
        [0, -16_384, 10, 10],
        [0, 0, i32::MAX, 10],
        [0, 0, 10, i32::MIN],
        [0, 0, -16_384, 16_384],
        [10, 0, 10, 10],
        [11, 0, 10, 10],
        [0, 10, 10, 10],
        [0, 11, 10, 10],
        [10, 10, 0, 0],
    ];
    let strokes: [Stroke; 6] = [
        [-5, 5, 15, 5],
        [16_384, 5, 15, 5],
        [-5, -16_384, 15, 5],
        [-5, 5, i32::MIN, 5],
        [-5, 5, 15, i32::MAX],
        [0, 0, 16_384, -16_384],
    ];
    let pairs = windows
        .iter()
        .flat_map(|window| strokes.iter().map(move |stroke| (window, stroke)));
    pairs
        .enumerate()
        .map(|(k, (window, stroke))| of(["lb", "cs"][k % 2], *window, *stroke))
        .collect()
}

pub fn line(random: &mut Random) -> Vec<u8> {
    let rule = random.pick(&["lb", "cs"]);
    let window = windows::window(random);
    let stroke = stroke(random, window);
    match random.below(12) {
        0 => of(rule, windows::faulty(random), stroke),
        1 => of(rule, window, off(random, stroke)),
        2 => {
            let window = windows::faulty(random);
            of(rule, window, off(random, stroke))
        }
        _ => of(rule, window, stroke),
    }
}

/// The stroke of a line turned round, of a rectangle by either rule; none where the line is no call with a single stroke.
pub fn turned_round(random: &mut Random, line: &[u8]) -> Option<Vec<u8>> {
    match read(line)? {
        Call::LiangBarsky(window, stroke) | Call::CohenSutherland(window, stroke) => {
            let rule = random.pick(&["lb", "cs"]);
            Some(of(rule, window, turned(stroke)))
        }
        Call::CyrusBeck(window, stroke) => Some(corner_windows::of(&window, turned(stroke))),
        _ => None,
    }
}

pub fn of(rule: &str, window: Window, stroke: Stroke) -> Vec<u8> {
    Line::of(rule).words(&window).words(&stroke).end()
}

/// Numbers from anywhere, or some of its own replaced.
pub fn off(random: &mut Random, mut stroke: Stroke) -> Stroke {
    if random.one_in(3) {
        return [(); 4].map(|_| anywhere(random));
    }
    spoil(random, &mut stroke);
    stroke
}
