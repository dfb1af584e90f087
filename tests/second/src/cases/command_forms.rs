//! Commands that every comparison of the program `book` has: two reasons to refuse at once, and each odd word in each place.

use super::sides::{NO_NUMBERS, ODD};

pub fn lines() -> Vec<String> {
    let mut lines = two_reasons();
    for word in ODD.iter().chain(NO_NUMBERS) {
        lines.extend(in_each_place(word));
    }
    lines.extend(halves());
    lines
}

/// The first of two reasons is told: 10, 19, 3, 17, 16 for a booking and 19, 18 for a release. Each renter's slots are filled for it.
fn two_reasons() -> Vec<String> {
    let mut lines = Vec::new();
    for renter in 0..2 {
        let squares =
            (0..32).map(|x| format!("book {renter} {x} {renter} {} {}", x + 1, renter + 1));
        lines.extend(squares);
        let strips = [
            "0 0 1 1",
            "0 0 512 1",
            "512 0 0 -512",
            "0 -600 600 1",
            "0 0 0 512",
            "5 0 5 1",
            "0 1 1 0",
            "40 40 41 41",
        ];
        for strip in strips {
            for asking in [renter, 2, -1] {
                lines.push(format!("book {asking} {strip}"));
            }
        }
        for slot in ["0", "31", "32", "-1", "99"] {
            lines.push(format!("release 2 {slot}"));
            lines.push(format!("release {} {slot}", 1 - renter));
        }
        lines.extend((0..32).rev().map(|slot| format!("release {renter} {slot}")));
    }
    lines
}

/// As each side in turn, as the renter, and as the slot; the slot that a booking may have taken is freed after it.
fn in_each_place(word: &str) -> Vec<String> {
    let mut lines = Vec::new();
    for (place, end) in ["-511.5", "-511.5", "511.5", "511.5"]
        .into_iter()
        .enumerate()
    {
        let mut sides = ["-511.5", "-511.5", "511.5", "511.5"];
        sides[place] = word;
        lines.push(format!("book 0 {}", sides.join(" ")));
        lines.push("release 0 0".to_string());
        // The opposite side goes to the same end, so that the word is once before it and once behind it.
        sides[(place + 2) % 4] = end;
        lines.push(format!("book 1 {}", sides.join(" ")));
        lines.push("release 1 0".to_string());
    }
    lines.push(format!("book {word} 0 0 1 1"));
    lines.push(format!("strips {word}"));
    lines.push(format!("release 0 {word}"));
    lines.push(format!("release {word} 0"));
    lines.extend(["release 0 0", "release 1 0"].map(str::to_string));
    lines
}

/// Halves of a step and what lies a millionth beside them, near 0, far from it, and at the ends of the table.
fn halves() -> Vec<String> {
    let halves = [
        0, 1, 2, 3, 3_200, 3_201, 9_610, 9_611, 16_381, 16_382, 16_383,
    ];
    let millionths = halves.map(|g| (2 * g + 1) * 15_625_i64);
    let beside = millionths
        .into_iter()
        .flat_map(|half| [half - 1, half, half + 1]);
    let sizes = beside.map(|size| format!("{}.{:06}", size / 1_000_000, size % 1_000_000));
    sizes
        .flat_map(|size| {
            [
                format!("book 0 {size} 0 511.96875 1"),
                "release 0 0".to_string(),
                format!("book 1 -511.96875 0 -{size} 1"),
                "release 1 0".to_string(),
                format!("book 0 -511.96875 -{size} 0 {size}"),
                "release 0 0".to_string(),
            ]
        })
        .collect()
}
