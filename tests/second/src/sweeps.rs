//! Sweeps for the comparison: floats over all bit patterns, every grid number there and back, runs of a strip book.

use crate::cases::{book_runs, books::Book};
use crate::millimetres::bits_of;
use crate::random::Random;
use crate::table::MOST;

/// One pattern a line, now as x, now as y: a refused x would hide its y.
pub fn floats(step: u32) -> impl Iterator<Item = String> {
    let patterns = (0..=u32::MAX).step_by(step as usize);
    patterns.enumerate().map(|(k, bits)| match k % 2 {
        0 => format!("mm2 {bits:08x} 00000000"),
        _ => format!("mm2 00000000 {bits:08x}"),
    })
}

/// From one past the range to one past it: back to millimetres, then those millimetres in.
pub fn grid() -> impl Iterator<Item = String> {
    let all = -MOST - 1..=MOST + 1;
    let back = all.clone().map(|g| format!("back {g}"));
    back.chain(all.map(|g| format!("mm2 {:08x} {:08x}", bits_of(g), bits_of(-g))))
}

/// Runs, then the most and the longest numbers that a book can be lent as, under either refusal that comes first.
pub fn books(seed: u64, count: usize) -> impl Iterator<Item = Vec<u8>> {
    let runs = book_runs::lines(&mut Random::new(seed), count);
    let longest = Book(vec![i32::MIN; 20_000]);
    let last = [0, i32::MIN].map(|renter| {
        [
            longest.enter(renter, [i32::MIN; 4]),
            longest.release(renter, i32::MIN),
            longest.strips(40_960, renter),
        ]
    });
    runs.into_iter().chain(last.concat())
}
