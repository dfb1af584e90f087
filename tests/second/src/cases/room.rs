//! How much output to lend: exact, one short, none, or more than needed.

use crate::random::Random;

pub fn room(random: &mut Random, needed: usize) -> usize {
    match random.below(8) {
        0..=2 => needed,
        3 => needed.saturating_sub(1),
        4 => 0,
        5 => random.below(needed + 1),
        6 => needed + 1,
        _ => needed + random.below(12),
    }
}

/// The four that every list of refusals goes through.
pub fn every(needed: usize) -> [usize; 4] {
    [needed, needed.saturating_sub(1), 0, needed + 3]
}
