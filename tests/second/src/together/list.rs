//! What is promised of a list's rows, on the answers of the left strip, of the right one and of the joined window.

use super::kinds::Kind;
use super::sentences::{holds, ALIKE, ROWS};
use std::collections::BTreeSet;

pub struct Answer {
    refusal: [i128; 2],
    /// The indices of the strokes that have a row.
    rows: BTreeSet<usize>,
}

pub fn read(room: usize, strokes: usize, numbers: &[i128]) -> Option<Answer> {
    let [number, place, written, output @ ..] = numbers else {
        return None;
    };
    let written = usize::try_from(*written).ok()?;
    if output.len() != room || written > room || written % 5 != 0 {
        return None;
    }
    let index = |row: &[i128]| {
        usize::try_from(row[0])
            .ok()
            .filter(|index| *index < strokes)
    };
    let rows: Option<BTreeSet<usize>> = output[..written].chunks(5).map(index).collect();
    let refusal = [*number, *place];
    rows.map(|rows| Answer { refusal, rows })
}

/// Of each stroke which kind of case it is, or that the list is refused; else what does not hold.
pub fn kinds(strokes: usize, answers: [Answer; 3]) -> Result<Vec<Kind>, String> {
    let [left, right, joined] = answers;
    holds(ALIKE, [left.refusal, right.refusal] == [joined.refusal; 2])?;
    if joined.refusal != [0, 0] {
        return Ok(vec![Kind::Refused]);
    }
    let kind = |index: usize| {
        let [left, right, joined] = [&left, &right, &joined].map(|a| a.rows.contains(&index));
        holds(ROWS, joined == (left || right))
            .map_err(|broken| format!("{broken} (stroke {index})"))?;
        Ok(match (left, right) {
            (true, true) => Kind::ByBoth,
            (false, false) => Kind::ByNone,
            _ => Kind::ByOne,
        })
    };
    (0..strokes).map(kind).collect()
}
