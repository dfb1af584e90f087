//! The second program against the printed examples, and against itself by other ways to the same answer.

mod agreement;
mod books;
mod cuts;
mod desk;
mod disk_numbers;
mod disk_orders;
mod disk_sittings;
mod disk_texts;
mod heard;
mod joined;
mod joined_by_hand;
mod passes;
mod plain_list;
mod seen;
mod together;
mod touches;
mod turned;
mod two_runs;
mod worked;

use crate::answer::answer;
use crate::batch::Touches;
use crate::cases::batches;
use crate::cases::stroke_kinds::Stroke;
use crate::cases::windows::Window;

/// The numbers of an answer.
fn numbers(line: &[u8]) -> Vec<i128> {
    let number = |word: &str| word.parse().expect("a number");
    answer(line).split(' ').map(number).collect()
}

/// Lines and their answers in turn.
fn expect(pairs: &[(&str, &str)]) {
    for (line, expected) in pairs {
        assert_eq!(answer(line.as_bytes()), *expected, "{line}");
    }
}

/// The rows that a list is answered in enough room, each an index and four numbers.
fn rows_of(touches: Touches, window: Window, strokes: &[Stroke]) -> Vec<[i128; 5]> {
    let line = batches::of(touches, 5 * strokes.len(), window, &strokes.concat());
    let answer = numbers(&line);
    let written = &answer[3..3 + answer[2] as usize];
    let row = |five: &[i128]| [five[0], five[1], five[2], five[3], five[4]];
    written.chunks(5).map(row).collect()
}
