//! Outlines at and past the limits: orders, counts, room, the ends of the table, several faults at once.

use super::flaws::PENTAGRAM;
use super::outlines::of;
use super::room::every;
use super::shapes::{regular, Corner};
use super::windows::Window;
use crate::table::MOST;

const WINDOW: Window = [0, 0, 10, 10];
const DIAMOND: [Corner; 4] = [[5, -2], [12, 5], [5, 12], [-2, 5]];

/// Orders past the last, counts past the limits, all kinds of room, every refusal with those above it.
pub fn lines() -> Vec<Vec<u8>> {
    let mut lines = Vec::new();
    let diamond = DIAMOND.concat();
    for order in [24, 25, 26, 100, 255, 256, 65_535, 65_536, u32::MAX] {
        lines.push(of(order, 32, WINDOW, &diamond));
    }
    lines.extend(every(32).map(|room| of(0, room, WINDOW, &diamond)));
    // No area needs no room.
    lines.extend(every(0).map(|room| of(1, room, WINDOW, &[-4, 0, 0, 2, -4, 4])));
    lines.extend(counts());
    lines.extend(extremes());
    lines.extend((0..24).map(many_corners));
    lines.extend(several_at_once());
    lines
}

/// 0 to 65 corners, and odd lengths, up to the desk's own limit.
fn counts() -> Vec<Vec<u8>> {
    let many: Vec<i32> = (0..128)
        .flat_map(|k| [k - 40, (k - 40) * (k - 40)])
        .collect();
    let lengths = [
        0, 1, 2, 3, 4, 5, 6, 7, 8, 126, 127, 128, 129, 130, 131, 254, 255, 256,
    ];
    lengths
        .iter()
        .map(|length| of(*length as u32 % 24, 280, WINDOW, &many[..*length]))
        .collect()
}

/// 64 corners in every order; each side cuts off one, so the ring has 68.
fn many_corners(order: u32) -> Vec<u8> {
    let size = [16_000, 4_000 + 500 * order as i32];
    let corners = regular(64, [0, 0], size, 0.0);
    let [right, top] = size.map(|n| n - 1 - order as i32);
    of(order, 280, [-right, -top, right, top], &corners.concat())
}

/// The largest outlines and windows, and the largest denominators.
fn extremes() -> Vec<Vec<u8>> {
    let most = MOST;
    let shapes: [&[i32]; 4] = [
        &[-most, -most, most, -most, most, most, -most, most],
        &[-most, -most, most, 1 - most, 1 - most, most],
        &[-most, -3, most, 5, 2, 7],
        &[-most, 1 - most, most, most - 2, most - 1, most],
    ];
    let near = most - 1;
    let windows = [
        [-most, -most, most, most],
        [-near, -most, near, most],
        [0, 0, 1, 1],
        [-near, -1, 1, near],
    ];
    let pairs = shapes
        .iter()
        .flat_map(|shape| windows.iter().map(move |window| (window, shape)));
    pairs
        .enumerate()
        .map(|(k, (window, shape))| of(k as u32, 32, *window, shape))
        .collect()
}

/// From the fault with the highest number on, one fault more a line.
fn several_at_once() -> Vec<Vec<u8>> {
    let diamond = DIAMOND.concat();
    let star = PENTAGRAM.concat();
    let far = [5, -2, 12, 5, 5, 16_384, -16_385, 5];
    let empty: Window = [10, 0, 10, 10];
    let off: Window = [10, 0, 10, -16_384];
    vec![
        of(0, 31, WINDOW, &diamond),
        of(0, 0, WINDOW, &star),
        of(0, 0, WINDOW, &far),
        of(0, 0, WINDOW, &far[..5]),
        of(24, 0, WINDOW, &far[..5]),
        of(24, 0, empty, &far[..5]),
        of(24, 0, off, &far[..5]),
        of(24, 0, WINDOW, &star),
        of(24, 0, WINDOW, &far),
        of(24, 31, WINDOW, &diamond),
        of(3, 31, empty, &diamond),
        of(3, 31, empty, &star),
        of(3, 0, off, &far),
        of(3, 9, WINDOW, &[0, 0, 1, 0, 16_384, 1, 0, 0]),
    ]
}
