//! Lists of strokes: `batch`, and `touches`, which has the same arguments.

use super::line::Line;
use super::numbers::spoil;
use super::room::{every, room};
use super::stroke_kinds::{stroke, turned, Stroke};
use super::touch_kinds;
use super::windows::{self, Window};
use crate::batch::{rows, Touches};
use crate::call::{read, Call};
use crate::random::Random;

pub const BOTH: [Touches; 2] = [Touches::LeftOut, Touches::Given];
const TWO: [i32; 8] = [-5, 5, 15, 5, 5, -5, 5, 15];

/// Lengths 0 to 8, all kinds of room, and every refusal with those above it.
pub fn fixed() -> Vec<Vec<u8>> {
    BOTH.map(fixed_by).concat()
}

fn fixed_by(touches: Touches) -> Vec<Vec<u8>> {
    let of = |room: usize, window: Window, list: &[i32]| of(touches, room, window, list);
    let window = [0, 0, 10, 10];
    let lengths = (0..=8).map(|length| of(10, window, &TWO[..length]));
    let rooms = every(10).map(|room| of(room, window, &TWO));
    let none_kept = every(0).map(|room| of(room, window, &[11, 11, 12, 12]));
    let mut lines: Vec<Vec<u8>> = lengths.chain(rooms).chain(none_kept).collect();
    let off = [-5, 5, 15, 5, 5, -5, 16_384, -16_384];
    let windows = [
        window,
        [0, 16_384, 10, 10],
        [0, 10, 10, 10],
        [10, 0, 0, 16_384],
    ];
    for window in windows {
        lines.push(of(0, window, &TWO));
        lines.push(of(9, window, &TWO[..7]));
        lines.push(of(9, window, &off));
        lines.push(of(9, window, &off[..7]));
    }
    lines
}

/// Strokes of every kind.
pub fn line(random: &mut Random) -> Vec<u8> {
    let window = windows::window(random);
    let list = many(random, window);
    asked(random, Touches::LeftOut, window, list)
}

/// Strokes that touch, or nearly do, by either name.
pub fn touching(random: &mut Random) -> Vec<u8> {
    let touches = random.pick(&BOTH);
    let window = touch_kinds::window(random);
    let count = 1 + random.below(12);
    let strokes: Vec<Stroke> = (0..count)
        .map(|_| touch_kinds::stroke(random, window))
        .collect();
    asked(random, touches, window, strokes.concat())
}

/// The room goes by what either name needs; now and then window and list are faulty.
fn asked(random: &mut Random, touches: Touches, mut window: Window, mut list: Vec<i32>) -> Vec<u8> {
    let needed = rows(random.pick(&BOTH), window, &list).len();
    let room = room(random, needed);
    if random.one_in(9) {
        window = windows::faulty(random);
    }
    if random.one_in(9) {
        spoil(random, &mut list);
    }
    if random.one_in(9) {
        let length = list.len().saturating_sub(random.below(5));
        list.truncate(length);
    }
    of(touches, room, window, &list)
}

/// The list of a `batch` with its touches asked for, in the same room or in as much as it needs; none where the line is no
/// `batch`.
pub fn with_touches(random: &mut Random, line: &[u8]) -> Option<Vec<u8>> {
    match read(line)? {
        Call::Batch(Touches::LeftOut, room, window, list) => {
            let needed = rows(Touches::Given, window, &list).len();
            let room = random.pick(&[room, needed]);
            Some(of(Touches::Given, room, window, &list))
        }
        _ => None,
    }
}

/// At times each is followed by itself turned round.
pub fn many(random: &mut Random, window: Window) -> Vec<i32> {
    let count = match random.below(6) {
        0 => random.below(2),
        1 => 20 + random.below(20),
        _ => 2 + random.below(8),
    };
    let mut strokes: Vec<[i32; 4]> = (0..count).map(|_| stroke(random, window)).collect();
    if random.one_in(3) {
        strokes = strokes.into_iter().flat_map(|s| [s, turned(s)]).collect();
    }
    strokes.concat()
}

pub fn of(touches: Touches, room: usize, window: Window, list: &[i32]) -> Vec<u8> {
    let name = match touches {
        Touches::LeftOut => "batch",
        Touches::Given => "touches",
    };
    Line::of(name).word(room).words(&window).list(list).end()
}
