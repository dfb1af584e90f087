//! Single grid numbers: on the table, near a given one, off the table, anywhere in 32 bits.

use crate::random::Random;
use crate::table::{holds, MOST};

pub fn on_table(random: &mut Random) -> i32 {
    random.between(-MOST, MOST)
}

pub fn onto_table(n: i32) -> i32 {
    n.clamp(-MOST, MOST)
}

pub fn near(random: &mut Random, n: i32, reach: i32) -> i32 {
    onto_table(n + random.between(-reach, reach))
}

/// The ends of the table, their neighbours and the middle.
pub fn extreme(random: &mut Random) -> i32 {
    random.pick(&[-MOST, 1 - MOST, -8_192, -1, 0, 1, 8_191, MOST - 1, MOST])
}

/// Just past an end or far off.
pub fn off_table(random: &mut Random) -> i32 {
    const PAST: [i32; 8] = [
        MOST + 1,
        -MOST - 1,
        32_767,
        -32_768,
        65_536,
        1 << 30,
        i32::MAX,
        i32::MIN,
    ];
    let n = anywhere(random);
    if holds(n) || random.one_in(2) {
        random.pick(&PAST)
    } else {
        n
    }
}

/// All of 32 bits, every size as likely.
pub fn anywhere(random: &mut Random) -> i32 {
    let shift = random.below(32);
    random.bits() as i32 >> shift
}

/// One to three of the numbers replaced by ones off the table.
pub fn spoil(random: &mut Random, numbers: &mut [i32]) {
    for _ in 0..random.between(1, 3) {
        if !numbers.is_empty() {
            let place = random.below(numbers.len());
            numbers[place] = off_table(random);
        }
    }
}
