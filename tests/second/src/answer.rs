//! The whole answer to one line: refusal number, place, every other field, then all of the output.

use crate::call::{read, Call};
use crate::fraction::Fraction;
use crate::kept::{Kept, Sides};
use crate::refusal::Refusal;
use crate::strip_book;
use crate::{batch, drawing, millimetres, outline};
use crate::{cohen_sutherland, cross_product, cyrus_beck, liang_barsky};

/// For a side: the stroke's own end remains, or nothing is kept.
const NO_SIDE: i128 = 255;

pub fn answer(line: &[u8]) -> String {
    match read(line) {
        Some(Call::Back(g)) => back(g),
        Some(call) => text(&numbers(call)),
        None => "?".to_string(),
    }
}

fn numbers(call: Call) -> Vec<i128> {
    match call {
        Call::Point(bits) => intake(millimetres::all(bits)),
        Call::Window(bits) => intake(millimetres::all(bits)),
        Call::Back(_) => unreachable!("its answer ends in hexadecimal digits"),
        Call::LiangBarsky(window, stroke) => rectangle(liang_barsky::clip, window, stroke),
        Call::CohenSutherland(window, stroke) => counted(window, stroke),
        Call::CrossProduct(window, stroke) => rectangle(cross_product::clip, window, stroke),
        Call::CyrusBeck(window, stroke) => corner_window(&window, stroke),
        Call::Batch(touches, room, window, list) => {
            lent(room, batch::write(touches, window, &list, room))
        }
        Call::Outline(order, room, window, list) => {
            lent(room, outline::write(order, window, &list, room))
        }
        Call::Draw(room, bytes) => drawn(room, drawing::write(&bytes, room)),
        Call::Enter(book, renter, strip) => entered(&book, renter, strip),
        Call::Release(book, renter, slot) => released(&book, renter, slot),
        Call::Strips(room, book, renter) => listed(room, &book, renter),
    }
}

fn text(numbers: &[i128]) -> String {
    let words: Vec<String> = numbers.iter().map(i128::to_string).collect();
    words.join(" ")
}

fn back(g: i32) -> String {
    let result = millimetres::back(g);
    let bits = result.unwrap_or(0);
    format!("{} {bits:08x}", text(&head(&result)))
}

/// Number and place.
fn head<T>(result: &Result<T, Refusal>) -> [i128; 2] {
    match result {
        Ok(_) => [0, 0],
        Err(refusal) => [refusal.number.into(), refusal.place as i128],
    }
}

fn intake<const N: usize>(result: Result<[i32; N], Refusal>) -> Vec<i128> {
    let mut answer = head(&result).to_vec();
    answer.extend(result.unwrap_or([0; N]).map(i128::from));
    answer
}

/// What a rule keeps of a stroke that is not refused.
type Clip = fn([i32; 4], [i32; 4]) -> Option<Kept>;

fn rectangle(clip: Clip, window: [i32; 4], stroke: [i32; 4]) -> Vec<i128> {
    let (mut answer, sides) = clipped(clip, window, stroke);
    answer.extend(numbered(sides));
    answer
}

/// The fields up to the points, and the sides.
fn clipped(clip: Clip, window: [i32; 4], stroke: [i32; 4]) -> (Vec<i128>, Sides) {
    let taken = liang_barsky::taken(window, stroke);
    let kept = taken.ok().and_then(|_| clip(window, stroke));
    let mut answer = head(&taken).to_vec();
    answer.extend(ends(kept.map(|kept| (kept.t0, kept.t1))));
    answer.extend(kept.map_or([0; 2], |kept| kept.first));
    answer.extend(kept.map_or([0; 2], |kept| kept.last));
    (answer, kept.map_or([None; 2], |kept| kept.sides))
}

/// The same stroke and window by either rule, so the same fields; the count and the sides are this rule's own.
fn counted(window: [i32; 4], stroke: [i32; 4]) -> Vec<i128> {
    let (mut answer, _) = clipped(liang_barsky::clip, window, stroke);
    let run = liang_barsky::taken(window, stroke).map(|_| cohen_sutherland::run(window, stroke));
    answer[2] = run.map_or(0, |run| run.kept.into());
    answer.push(run.map_or(0, |run| run.shortenings.into()));
    answer.extend(numbered(run.map_or([None; 2], |run| run.sides)));
    answer
}

fn corner_window(window: &[i32], stroke: [i32; 4]) -> Vec<i128> {
    let taken = cyrus_beck::taken(window, stroke);
    let kept = taken.ok().and_then(|_| cyrus_beck::clip(window, stroke));
    let mut answer = head(&taken).to_vec();
    answer.extend(ends(kept));
    let sides = kept.map_or([None; 2], |kept| cyrus_beck::sides(window, stroke, kept));
    answer.extend(numbered(sides));
    answer
}

fn numbered(sides: Sides) -> [i128; 2] {
    sides.map(|side| side.map_or(NO_SIDE, |side| side as i128))
}

/// Kept or missed, then the two fractions.
fn ends(kept: Option<(Fraction, Fraction)>) -> [i128; 5] {
    let (t0, t1) = kept.unwrap_or((Fraction::ZERO, Fraction::ZERO));
    [kept.is_some().into(), t0.num, t0.den, t1.num, t1.den]
}

fn lent(room: usize, result: Result<Vec<i128>, Refusal>) -> Vec<i128> {
    let mut answer = head(&result).to_vec();
    let written = result.unwrap_or_default();
    answer.push(written.len() as i128);
    answer.extend(output(room, &written));
    answer
}

fn drawn(room: usize, result: Result<drawing::Drawing, Refusal>) -> Vec<i128> {
    let mut answer = head(&result).to_vec();
    let (window, strokes) = result.map_or(([0; 4], vec![]), |d| (d.window, d.strokes));
    answer.extend(window.map(i128::from));
    answer.push(strokes.len() as i128);
    let written: Vec<i128> = strokes.concat().into_iter().map(i128::from).collect();
    answer.extend(output(room, &written));
    answer
}

/// The slot, 0 where refused, and the whole book, which a refusal leaves as it was.
fn entered(book: &[i32], renter: i32, strip: [i32; 4]) -> Vec<i128> {
    let result = strip_book::enter(book, renter, strip);
    let mut answer = head(&result).to_vec();
    let (slot, after) = result.unwrap_or((0, book.to_vec()));
    answer.push(slot as i128);
    answer.extend(after.into_iter().map(i128::from));
    answer
}

fn released(book: &[i32], renter: i32, slot: i32) -> Vec<i128> {
    let result = strip_book::release(book, renter, slot);
    let mut answer = head(&result).to_vec();
    let after = result.unwrap_or(book.to_vec());
    answer.extend(after.into_iter().map(i128::from));
    answer
}

/// A listing changes nothing in the book, so the answer does not give it back.
fn listed(room: usize, book: &[i32], renter: i32) -> Vec<i128> {
    let list = strip_book::listing(book, renter, room);
    lent(
        room,
        list.map(|list| list.into_iter().map(i128::from).collect()),
    )
}

/// What was written from the front, then what the desk had put there.
fn output(room: usize, written: &[i128]) -> Vec<i128> {
    let filled = (written.len()..room).map(|i| 7_000_000 + i as i128);
    written.iter().copied().chain(filled).collect()
}
