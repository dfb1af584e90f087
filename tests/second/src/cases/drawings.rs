//! Drawing files: `draw`.

use super::floats::gentle;
use super::line::Line;
use super::room::room;
use super::sketch::{counted, Sketch};
use super::windows;
use crate::drawing::{read, LINE, MOVE};
use crate::millimetres::bits_of;
use crate::random::Random;

/// The 40-byte drawing that the listing is shown with.
pub fn example() -> Vec<u8> {
    let window = Sketch::on_grid([0, 0, 10, 10]);
    window.go(-5, 5).line(15, 5).close().file()
}

pub fn line(random: &mut Random) -> Vec<u8> {
    let mut file = sketch(random).file();
    let needed = read(&file).map_or(9, |drawing| 4 * drawing.strokes.len());
    let room = room(random, needed);
    match random.below(16) {
        0 => {
            let place = random.below(file.len());
            file[place] ^= 1 << random.below(8);
        }
        1 => {
            let end = 4 + random.below(file.len() - 4);
            file = counted(&file[4..end]);
        }
        2 => file.truncate(random.below(40)),
        _ => {}
    }
    of(room, &file)
}

fn sketch(random: &mut Random) -> Sketch {
    let window = match random.below(10) {
        0 => Sketch::on([(); 4].map(|_| gentle(random))),
        1 => {
            let mut window = windows::window(random);
            window.swap(0, 2);
            Sketch::on_grid(window)
        }
        _ => Sketch::on_grid(windows::window(random)),
    };
    let early = random.one_in(24);
    let start = if early {
        window
    } else {
        step(random, window, 0)
    };
    (0..random.below(18)).fold(start, |sketch, _| {
        let kind = random.below(8);
        step(random, sketch, kind)
    })
}

/// Small coordinates, so that the pen often comes to where it was.
fn step(random: &mut Random, sketch: Sketch, kind: usize) -> Sketch {
    let mut number = || match random.below(40) {
        0 => gentle(random),
        1..=8 => bits_of(random.between(-16_383, 16_383)),
        9..=14 => bits_of(random.between(1, 3)) + 1,
        _ => bits_of(random.between(-3, 3)),
    };
    let to = [number(), number()];
    match kind {
        0 => sketch.step(MOVE, to),
        1 | 2 => sketch.close(),
        _ => sketch.step(LINE, to),
    }
}

pub fn of(room: usize, file: &[u8]) -> Vec<u8> {
    Line::of("draw").word(room).file(file).end()
}
