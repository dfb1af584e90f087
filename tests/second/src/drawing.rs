//! The drawing file, read by its format.

use crate::millimetres::grid;
use crate::rectangle;
use crate::refusal::{at, first, Refusal};

const MOST_BYTES: usize = 65_536;
const MOST_STROKES: usize = 4_096;
pub const VERSION: u8 = 1;
pub const MOVE: u8 = 0x4d;
pub const LINE: u8 = 0x4c;
pub const CLOSE: u8 = 0x5a;

#[derive(Clone, Debug, PartialEq, Eq)]
pub struct Drawing {
    pub window: [i32; 4],
    pub strokes: Vec<[i32; 4]>,
}

/// 11 is decided first, on the whole file, then 3, then 8.
pub fn write(bytes: &[u8], room: usize) -> Result<Drawing, Refusal> {
    let drawing = read(bytes).ok_or(Refusal {
        number: 11,
        place: 0,
    })?;
    // Its numbers passed the intake, so 2 cannot apply.
    let [_, area] = rectangle::faults(drawing.window);
    let needed = 4 * drawing.strokes.len();
    first(&[area, at((needed > room).then_some(needed), 8)])?;
    Ok(drawing)
}

/// None for any fault.
pub fn read(bytes: &[u8]) -> Option<Drawing> {
    if bytes.len() > MOST_BYTES {
        return None;
    }
    let mut rest = bytes;
    let count = u32::from_be_bytes(take(&mut rest)?);
    if count as usize != rest.len() || take(&mut rest)? != [VERSION] {
        return None;
    }
    let [left, bottom] = pair(&mut rest)?;
    let [right, top] = pair(&mut rest)?;
    Some(Drawing {
        window: [left, bottom, right, top],
        strokes: records(rest)?,
    })
}

/// The pen's place and the figure's start, none before the first move.
type Figure = Option<([i32; 2], [i32; 2])>;

fn records(mut rest: &[u8]) -> Option<Vec<[i32; 4]>> {
    let mut figure: Figure = None;
    let mut strokes = Vec::new();
    while !rest.is_empty() {
        let [letter] = take(&mut rest)?;
        let (to, start) = match letter {
            MOVE => {
                let to = pair(&mut rest)?;
                figure = Some((to, to));
                continue;
            }
            LINE => (pair(&mut rest)?, figure?.1),
            CLOSE => (figure?.1, figure?.1),
            _ => return None,
        };
        let pen = figure?.0;
        // Only a close compares: a line to the pen's own point is a stroke of no length.
        if letter == LINE || pen != to {
            strokes.push([pen[0], pen[1], to[0], to[1]]);
        }
        figure = Some((to, start));
    }
    (strokes.len() <= MOST_STROKES).then_some(strokes)
}

/// The next N bytes, none if the file is cut before their end.
fn take<const N: usize>(rest: &mut &[u8]) -> Option<[u8; N]> {
    let bytes = rest.get(..N)?.try_into().ok()?;
    *rest = &rest[N..];
    Some(bytes)
}

/// Two f32 on the grid; a number that the intake refuses is a fault.
fn pair(rest: &mut &[u8]) -> Option<[i32; 2]> {
    let first = u32::from_be_bytes(take(rest)?);
    let second = u32::from_be_bytes(take(rest)?);
    Some([grid(first).ok()?, grid(second).ok()?])
}
