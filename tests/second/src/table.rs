//! The range of the grid numbers on the table.

pub const MOST: i32 = 16_383;

pub fn holds(n: i32) -> bool {
    (-MOST..=MOST).contains(&n)
}

pub fn first_off(numbers: &[i32]) -> Option<usize> {
    numbers.iter().position(|n| !holds(*n))
}
