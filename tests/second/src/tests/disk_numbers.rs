//! Millimetres in decimal digits, by hand and there and back.

use crate::cases::sides::{spelled, NO_NUMBERS};
use crate::disk::decimal::{grid, millimetres, value};
use crate::random::Random;
use crate::table::MOST;

fn to_grid(word: &str) -> Option<i32> {
    grid(value(word.as_bytes()).expect("a number"))
}

#[test]
fn to_the_nearest_line() {
    for (word, g) in [
        ("0", 0),
        ("-0", 0),
        ("20", 640),
        ("020.00", 640),
        ("0.03125", 1),
        ("-0.03125", -1),
        ("1.5", 48),
        // Halves of a step: 0.5, 1.5, 2.5, 3.5 and their negatives.
        ("0.015625", 0),
        ("0.046875", 2),
        ("0.078125", 2),
        ("0.109375", 4),
        ("-0.015625", 0),
        ("-0.046875", -2),
        ("-0.078125", -2),
        // A little beside the half; and far from 0, where an f32 does not tell it from the half: 100.015625 is 3200.5 steps.
        ("0.01562501", 1),
        ("0.01562499", 0),
        ("100.015625", 3_200),
        ("100.015626", 3_200),
        ("100.015624", 3_200),
        ("100.046875", 3_202),
        ("100.046874", 3_202),
        ("-100.015626", -3_200),
        ("511.96875", 16_383),
        ("-511.96875", -16_383),
    ] {
        assert_eq!(to_grid(word), Some(g), "{word}");
    }
}

#[test]
fn off_the_table() {
    // 16,383.5 steps go to 16,384, the even one.
    let words = "511.984374 511.984375 -511.984375 512 -512 511.984376 999999999 -999999999";
    for word in words.split(' ') {
        assert_eq!(to_grid(word), None, "{word}");
    }
}

#[test]
fn no_numbers() {
    for word in NO_NUMBERS {
        assert_eq!(value(word.as_bytes()), None, "{word}");
    }
    assert_eq!(value(b""), None);
    assert!(value(b"123456789").is_some() && value(b"-1.23456789").is_some());
}

#[test]
fn back_in_the_fewest_digits() {
    for (g, word) in [
        (0, "0"),
        (1, "0.03125"),
        (-1, "-0.03125"),
        (2, "0.0625"),
        (16, "0.5"),
        (-16, "-0.5"),
        (32, "1"),
        (-33, "-1.03125"),
        (320, "10"),
        (640, "20"),
        (3_200, "100"),
        (16_383, "511.96875"),
        (-16_384, "-512"),
    ] {
        assert_eq!(millimetres(g), word);
    }
}

/// Every line of the grid there and back, and in spellings that only come near it.
#[test]
fn every_spelling_goes_to_its_line() {
    let mut random = Random::new(3);
    for g in -MOST..=MOST {
        assert_eq!(to_grid(&millimetres(g)), Some(g));
        for _ in 0..20 {
            let word = spelled(&mut random, g);
            assert_eq!(to_grid(&word), Some(g), "{word}");
        }
    }
}
