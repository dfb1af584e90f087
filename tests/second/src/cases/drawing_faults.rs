//! Drawing files with a fault each, and their sound neighbours.

use super::drawings::{example, of};
use super::room::every;
use super::sketch::{counted, Sketch};
use crate::drawing::{CLOSE, LINE, MOVE};
use crate::millimetres::bits_of;

const NAN: u32 = 0x7fc0_0000;
const INFINITE: u32 = 0x7f80_0000;

pub fn lines() -> Vec<Vec<u8>> {
    let mut files = cuts(&example());
    files.extend(cuts(&figures().file()));
    files.extend(wrong_heads());
    files.extend(wrong_numbers());
    files.extend(pens());
    let mut lines: Vec<Vec<u8>> = files.iter().map(|file| of(9, file)).collect();
    lines.extend(rooms());
    lines
}

/// Two figures with all kinds of steps.
fn figures() -> Sketch {
    let first = Sketch::on_grid([-7, -8, 9, 10]).go(1, 2).line(3, 4).close();
    first.line(5, 6).go(0, 0).close()
}

/// Cut at every byte, as it is and with the count put right.
fn cuts(file: &[u8]) -> Vec<Vec<u8>> {
    let plain = (0..=file.len()).map(|end| file[..end].to_vec());
    let right = (4..file.len()).map(|end| counted(&file[4..end]));
    plain.chain(right).collect()
}

/// Wrong counts and versions.
fn wrong_heads() -> Vec<Vec<u8>> {
    let counts = [
        0u32,
        35,
        37,
        36 << 24,
        0x24_0000,
        36 | 1 << 16,
        u32::MAX,
        1 << 31 | 36,
    ];
    let with_count = |count: &u32| [&count.to_be_bytes(), &example()[4..]].concat();
    let mut files: Vec<Vec<u8>> = counts.iter().map(with_count).collect();
    for version in [0, 2, 0x31, 0x81, 255] {
        let mut file = example();
        file[4] = version;
        files.push(file);
    }
    // One byte more, not counted and counted; the last is a close and so a record.
    files.push([&example()[..], &[0]].concat());
    files.push([&example()[..], &[CLOSE]].concat());
    files.push(counted(&[&example()[4..], &[0]].concat()));
    files.push(counted(&[&example()[4..], &[CLOSE]].concat()));
    files
}

/// NaN, infinite and off the range at every place; windows that lose their area in rounding.
fn wrong_numbers() -> Vec<Vec<u8>> {
    let good = [0, 0, 10, 10].map(bits_of);
    let past = (16_383.5f32 / 32.0).to_bits();
    let mut files = Vec::new();
    for bits in [NAN, 0xff80_0001, INFINITE, INFINITE | 1 << 31, past] {
        for place in 0..4 {
            let mut window = good;
            window[place] = bits;
            files.push(Sketch::on(window).go(1, 1).line(2, 2).file());
        }
        for letter in [MOVE, LINE] {
            let sketch = Sketch::on(good).go(1, 1);
            files.push(sketch.clone().step(letter, [bits, good[0]]).file());
            files.push(sketch.step(letter, [good[0], bits]).close().file());
        }
    }
    let below = past - 1;
    files.push(Sketch::on([0, 0, below, below]).go(1, 1).file());
    // 0.5 of a grid step rounds to 0, 1.5 to 2.
    let half = [1, 3].map(|n| (n as f32 / 64.0).to_bits());
    for window in [
        [0, 0, half[0], half[1]],
        [0, 0, half[1], half[0]],
        [0, 0, half[1], half[1]],
    ] {
        files.push(Sketch::on(window).go(0, 0).line(1, 1).file());
        files.push(Sketch::on(window).go(0, 0).line(1, 1).bytes(&[0]).file());
    }
    files
}

/// What moves the pen and what draws.
fn pens() -> Vec<Vec<u8>> {
    let on = || Sketch::on_grid([0, 0, 10, 10]);
    let beside = [bits_of(3) + 1, bits_of(4) - 1];
    let mut sketches = vec![
        on(),
        on().close(),
        on().line(1, 1),
        on().go(1, 1),
        on().go(1, 1).go(2, 2).close(),
        on().go(1, 1).line(1, 1),
        on().go(1, 1).line(1, 1).close(),
        on().go(3, 4).step(LINE, beside).close(),
        on().step(MOVE, beside).line(3, 4).close(),
        on().go(1, 1).line(2, 2).close().close(),
        on().go(1, 1).line(2, 2).close().line(3, 3).close(),
        on().go(1, 1).line(2, 2).line(3, 3).line(1, 1).close(),
        on().go(1, 1).line(2, 2).go(5, 5).line(6, 6).close(),
        on().close().go(1, 1).line(2, 2),
        on().line(1, 1).go(1, 1).line(2, 2),
        on().go(-16_383, 16_383).line(16_383, -16_383).close(),
    ];
    for letter in [0, 0x01, 0x4b, 0x4e, 0x6c, 0x6d, 0x7a, 0xcd, 0xff] {
        sketches.push(on().go(1, 1).step(letter, [1, 1].map(bits_of)));
        sketches.push(on().go(1, 1).line(2, 2).bytes(&[letter]));
    }
    sketches.iter().map(Sketch::file).collect()
}

/// All kinds of room, alone and with 11 and 3 before 8.
fn rooms() -> Vec<Vec<u8>> {
    let faulty = counted(&[&example()[4..], &[0]].concat());
    let flat = Sketch::on_grid([0, 10, 10, 10]).go(1, 1).line(2, 2);
    let both = flat.clone().bytes(&[0]).file();
    let files = [example(), faulty, flat.file(), both, figures().file()];
    files
        .iter()
        .flat_map(|file| every(8).map(|room| of(room, file)))
        .collect()
}
