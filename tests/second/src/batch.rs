//! A list of strokes against a rectangle: the index and the rounded ends of every kept one, but for those that only touch,
//! unless they are asked for.

use crate::kept::Kept;
use crate::liang_barsky::clip;
use crate::rectangle;
use crate::refusal::{at, lowest, when, Refusal};
use crate::table;

const MOST_STROKES: usize = 4_096;

/// What becomes of the strokes that only touch the window.
#[derive(Clone, Copy, Debug, PartialEq, Eq)]
pub enum Touches {
    LeftOut,
    Given,
}

pub fn write(
    touches: Touches,
    window: [i32; 4],
    numbers: &[i32],
    room: usize,
) -> Result<Vec<i128>, Refusal> {
    let [range, area] = rectangle::faults(window);
    let cut = !numbers.chunks_exact(4).remainder().is_empty();
    let length = cut || numbers.len() > 4 * MOST_STROKES;
    let off = at(table::first_off(numbers), 6);
    lowest(&[range, area, when(length, 5), off])?;
    let answer = rows(touches, window, numbers);
    let short = (answer.len() > room).then_some(answer.len());
    lowest(&[at(short, 8)])?;
    Ok(answer)
}

/// Five numbers for each stroke that is given.
pub fn rows(touches: Touches, window: [i32; 4], numbers: &[i32]) -> Vec<i128> {
    let given = |kept: &Kept| touches == Touches::Given || !kept.only_touches();
    let mut rows = Vec::new();
    for (index, s) in numbers.chunks_exact(4).enumerate() {
        if let Some(kept) = clip(window, [s[0], s[1], s[2], s[3]]).filter(given) {
            rows.push(index as i128);
            rows.extend(kept.first);
            rows.extend(kept.last);
        }
    }
    rows
}
