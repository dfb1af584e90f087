//! The desk's own page: its example, its limits and what gets `?`.

use super::expect;
use crate::answer::answer;
use crate::cases::{by_hand, lot};
use crate::lines::lines;

#[test]
fn the_example() {
    expect(&by_hand::DESK);
}

#[test]
fn numbers_and_spaces() {
    expect(&by_hand::WORDS);
}

#[test]
fn the_longest_line() {
    let padded = |length: usize| format!("back {}5", "0".repeat(length - 6)).into_bytes();
    assert_eq!(padded(400_000).len(), 400_000);
    assert_eq!(answer(&padded(400_000)), "0 0 3e200000");
    assert_eq!(answer(&padded(400_001)), "?");
}

#[test]
fn a_lot_is_as_long_as_asked_and_starts_alike() {
    let (one, other) = (lot(1, 5_500), lot(2, 5_500));
    assert_eq!(lines(&one.join(&b'\n')).len(), 5_500);
    assert_eq!(one[..200], other[..200]);
    assert_ne!(one, other);
}
