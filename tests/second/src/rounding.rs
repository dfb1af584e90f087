//! The one rounding to a whole number, of millimetres at intake and of a kept stroke's points alike.

use crate::fraction::Fraction;
use std::cmp::Ordering;

/// The nearest whole number; of the two neighbours of a half the even one.
pub fn half_to_even(value: Fraction) -> i128 {
    let below = value.floor();
    match (value - Fraction::whole(below)).cmp(&Fraction::HALF) {
        Ordering::Less => below,
        Ordering::Equal if below % 2 == 0 => below,
        _ => below + 1,
    }
}
