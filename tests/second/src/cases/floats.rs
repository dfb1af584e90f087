//! Millimetre numbers and back: `mm2`, `mm4`, `back`.

use super::line::Line;
use super::numbers::{anywhere, off_table, on_table};
use crate::millimetres::bits_of;
use crate::random::Random;
use crate::table::MOST;

const INFINITE: u32 = 0x7f80_0000;
const SIGN: u32 = 1 << 31;

/// Sizes with something to them; the sign comes on top.
fn kinds() -> Vec<u32> {
    let mut kinds = vec![0, 1, 2, 0x7f_fffe, 0x7f_ffff, 0x80_0000, 0x80_0001];
    // Grid halves and their neighbours, at both ends of the range and small: 0.5 to 3.5.
    for half in [1, 3, 5, 7, 2 * MOST - 1, 2 * MOST + 1, 2 * MOST + 3] {
        let bits = (half as f32 / 64.0).to_bits();
        kinds.extend([bits - 1, bits, bits + 1]);
    }
    for grid in [1, 2, 3, 32, 33, MOST - 1, MOST, MOST + 1, 32_768] {
        kinds.push(bits_of(grid));
    }
    kinds.extend([0.1f32, 0.3, 1.0 / 3.0, 100.1, 1e-20, 1e9, 1e30].map(f32::to_bits));
    // 32 times these is the last that is finite and the first that is not.
    kinds.extend([0x7cff_ffff, 0x7d00_0000, 0x7f7f_ffff, INFINITE]);
    // Quiet and signalling NaNs.
    kinds.extend([
        0x7fc0_0000,
        0x7f80_0001,
        0x7fbf_ffff,
        0x7fff_ffff,
        0x7fa0_1234,
    ]);
    kinds
}

/// Every kind with either sign at both places of a point and some place of a window.
pub fn fixed() -> Vec<Vec<u8>> {
    let one = 1.0f32.to_bits();
    let mut lines = Vec::new();
    for (k, bits) in kinds().into_iter().enumerate() {
        lines.push(point([bits, one]));
        lines.push(point([one, bits | SIGN]));
        let mut window = [one, bits_of(-7), one | SIGN, bits_of(MOST)];
        window[k % 4] = if k % 2 == 0 { bits } else { bits | SIGN };
        lines.push(Line::of("mm4").words(&window.map(hex)).end());
    }
    let faults = [
        INFINITE,
        INFINITE | SIGN,
        0x7fc0_0000,
        0xff80_0001,
        bits_of(MOST + 1),
    ];
    for first in faults {
        lines.extend(faults.map(|second| point([first, second])));
    }
    lines.extend(backs().map(|g| Line::of("back").word(g).end()));
    lines
}

fn backs() -> impl Iterator<Item = i32> {
    let powers = (0..31).flat_map(|k| [1 << k, -(1 << k)]);
    powers.chain([0, 3, -5, 12_345, MOST, -MOST, -MOST - 1, i32::MAX, i32::MIN])
}

pub fn line(random: &mut Random) -> Vec<u8> {
    match random.below(5) {
        0 => Line::of("back").word(back(random)).end(),
        1 | 2 => {
            let window = [(); 4].map(|_| gentle(random));
            Line::of("mm4").words(&window.map(hex)).end()
        }
        _ => point([float(random), float(random)]),
    }
}

fn back(random: &mut Random) -> i32 {
    match random.below(4) {
        0 => off_table(random),
        1 => anywhere(random),
        _ => on_table(random),
    }
}

/// Mostly on the table, so that the later places of a window are reached.
pub fn gentle(random: &mut Random) -> u32 {
    if random.one_in(8) {
        float(random)
    } else {
        on_range(random)
    }
}

fn float(random: &mut Random) -> u32 {
    match random.below(8) {
        0 => random.bits() as u32,
        1 => random.pick(&kinds()) ^ random.pick(&[0, SIGN]),
        2 => INFINITE | random.pick(&[0, SIGN]) | random.bits() as u32 & 0x7f_ffff,
        // Exponents from far below a grid step to beyond the range.
        3 => {
            let exponent = random.between(110, 140) as u32;
            random.bits() as u32 & 0x807f_ffff | exponent << 23
        }
        _ => on_range(random),
    }
}

/// A grid number, a half, or a neighbour of either.
fn on_range(random: &mut Random) -> u32 {
    let small = random.between(-40, 40);
    let grid = if random.one_in(2) {
        small
    } else {
        on_table(random)
    };
    let double = 2 * grid + random.between(0, 1);
    let bits = (double as f32 / 64.0).to_bits();
    match random.below(3) {
        0 if bits & !SIGN != 0 => bits - 1,
        1 => bits + 1,
        _ => bits,
    }
}

fn hex(bits: u32) -> String {
    format!("{bits:08x}")
}

pub fn point(bits: [u32; 2]) -> Vec<u8> {
    Line::of("mm2").words(&bits.map(hex)).end()
}
