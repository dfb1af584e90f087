//! The few lines that go to a limit: 4,096 strokes and one more, the longest files, lists, books and lines.

use super::books::Book;
use super::sketch::{counted, Sketch};
use super::stroke_kinds::stroke;
use super::windows::Window;
use super::{batches, drawings, strokes};
use crate::batch::Touches;
use crate::random::Random;

const MOST_STROKES: usize = 4_096;
const LONGEST_LINE: usize = 400_000;
const WINDOW: Window = [0, 0, 9, 9];

pub fn lines(random: &mut Random) -> Vec<Vec<u8>> {
    [
        long_lists(random),
        long_drawings(random),
        long_books(),
        long_lines(random),
    ]
    .concat()
}

/// Strokes with single-digit ends, all of them kept: short to write.
fn kept(random: &mut Random, numbers: usize) -> Vec<i32> {
    (0..numbers).map(|_| random.between(0, 9)).collect()
}

fn mixed(random: &mut Random) -> Vec<i32> {
    let strokes: Vec<[i32; 4]> = (0..MOST_STROKES).map(|_| stroke(random, WINDOW)).collect();
    strokes.concat()
}

fn long_lists(random: &mut Random) -> Vec<Vec<u8>> {
    let most = 4 * MOST_STROKES;
    let list = kept(random, 20_001);
    let needed = 5 * MOST_STROKES;
    let mut last_off = list[..most].to_vec();
    last_off[most - 1] = 16_384;
    let batch = |room: usize, list: &[i32]| batches::of(Touches::LeftOut, room, WINDOW, list);
    let touches = |room: usize, list: &[i32]| batches::of(Touches::Given, room, WINDOW, list);
    let mut lines = vec![
        batch(needed, &list[..most]),
        batch(needed - 1, &list[..most]),
        batch(40_960, &mixed(random)),
        batch(3, &last_off),
        batch(3, &list[..most - 1]),
        batch(3, &list[..most + 1]),
        batch(3, &list[..most + 4]),
        batch(3, &list[..20_000]),
        batch(3, &list),
    ];
    // All of them only touch; every other one does.
    let only = touching(random, MOST_STROKES);
    let by_turns: Vec<i32> = (0..most)
        .map(|place| [&list, &only][place / 4 % 2][place])
        .collect();
    lines.extend([
        batch(0, &only),
        touches(needed, &only),
        batch(needed / 2, &by_turns),
        touches(3, &by_turns),
        touches(3, &last_off),
        touches(3, &only[..most - 1]),
        touches(3, &list[..most + 4]),
        touches(3, &list[..20_000]),
        touches(3, &list),
    ]);
    lines
}

/// Strokes that end at the left side or at the bottom, or start there.
fn touching(random: &mut Random, strokes: usize) -> Vec<i32> {
    let mut list = Vec::new();
    for _ in 0..strokes {
        let (inside, beyond) = (random.between(0, 9), random.between(0, 9));
        list.extend(random.pick(&[
            [-1, beyond, 0, inside],
            [0, inside, -1, beyond],
            [beyond, -1, inside, 0],
            [inside, 0, beyond, -1],
        ]));
    }
    list
}

fn long_drawings(random: &mut Random) -> Vec<Vec<u8>> {
    let most = 4 * MOST_STROKES;
    let lines = |random: &mut Random, count: usize| {
        (0..count).fold(Sketch::on_grid(WINDOW).go(0, 0), |sketch, _| {
            sketch.line(random.between(-20, 20), random.between(-20, 20))
        })
    };
    let full = closing(MOST_STROKES);
    // Moves and closes without a stroke may follow the last stroke.
    let after = full.clone().go(3, 3).close().close();
    vec![
        drawings::of(most, &lines(random, MOST_STROKES).file()),
        drawings::of(most + 9, &lines(random, MOST_STROKES + 1).file()),
        drawings::of(most + 1, &after.file()),
        drawings::of(most - 1, &full.file()),
        drawings::of(3, &after.line(3, 3).file()),
        drawings::of(3, &full.go(1, 1).line(1, 1).close().file()),
        drawings::of(9, &sized(65_536)),
        drawings::of(9, &sized(65_537)),
        drawings::of(9, &sized(70_000)),
        drawings::of(9, &sized(70_001)),
    ]
}

/// Half of its strokes are closes, so it takes little room.
fn closing(strokes: usize) -> Sketch {
    let start = Sketch::on_grid(WINDOW).go(0, 0);
    (0..strokes / 2).fold(start, |sketch, _| sketch.line(1, 2).close())
}

/// A file of this many bytes in all: one figure, then closes that make nothing.
fn sized(bytes: usize) -> Vec<u8> {
    let start = Sketch::on_grid(WINDOW).go(0, 0).line(1, 1).close().file();
    let closes = vec![crate::drawing::CLOSE; bytes - start.len()];
    counted(&[&start[4..], &closes].concat())
}

/// As many numbers as the desk takes for a book or as room, and one more.
fn long_books() -> Vec<Vec<u8>> {
    let [most, more] = [20_000, 20_001].map(|length| Book::full().cut_to(length));
    vec![
        most.enter(0, WINDOW),
        most.release(1, 0),
        most.strips(9, 0),
        more.enter(0, WINDOW),
        more.release(1, 0),
        more.strips(9, 0),
        Book::full().strips(40_960, 1),
        Book::full().strips(40_961, 1),
    ]
}

fn long_lines(random: &mut Random) -> Vec<Vec<u8>> {
    let list = kept(random, 4 * MOST_STROKES);
    let batch = batches::of(Touches::LeftOut, 5 * MOST_STROKES, WINDOW, &list);
    let few = [touching(random, 12), list[..48].to_vec()].concat();
    let touches = batches::of(Touches::Given, 120, WINDOW, &few);
    let lb = strokes::of("lb", WINDOW, [-5, 5, 15, 5]);
    let cs = strokes::of("cs", WINDOW, [-5, 5, 15, 5]);
    let book = Book::full().without([1, 31]);
    vec![
        padded(&batch, LONGEST_LINE),
        padded(&touches, 20_000),
        padded(&lb, 20_000),
        padded(&book.enter(1, [8, 8, 9, 9]), 20_000),
        padded(&book.release(1, 30), 20_000),
        padded(&book.strips(155, 1), 20_000),
        padded(&lb, LONGEST_LINE + 1),
        cs,
    ]
}

/// Leading zeros, as evenly as they go, before every number but the last, which takes the rest.
fn padded(line: &[u8], length: usize) -> Vec<u8> {
    let words: Vec<&[u8]> = line.split(|byte| *byte == b' ').collect();
    let each = (length - line.len()) / (words.len() - 1);
    let rest = length - line.len() - each * (words.len() - 2);
    let mut longer = words[0].to_vec();
    for (k, word) in words.iter().enumerate().skip(1) {
        let zeros = if k + 1 == words.len() { rest } else { each };
        let digits = word.strip_prefix(b"-").unwrap_or(word);
        longer.push(b' ');
        longer.extend(&word[..word.len() - digits.len()]);
        longer.extend(vec![b'0'; zeros]);
        longer.extend(digits);
    }
    longer
}
