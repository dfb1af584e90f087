//! Millimetres in decimal digits: from a word to the grid, and back without a rest.

use crate::fraction::Fraction;
use crate::rounding::half_to_even;
use crate::table;

/// Before the point and behind it together; a zero is a digit too.
pub const MOST_DIGITS: usize = 9;

/// The f32 nearest to what a word spells.
pub fn value(word: &[u8]) -> Option<Fraction> {
    spelled(word).map(single)
}

/// The f32 nearest to a number of nine digits, a half to the even one.
fn single(number: Fraction) -> Fraction {
    let size = Fraction::new(number.num.abs(), number.den);
    if size == Fraction::ZERO {
        return size;
    }
    // The step of 24 binary digits of its size, from one below that of the least number of nine digits.
    let mut step = Fraction::new(1, 1 << 60);
    while size.num * step.den >= size.den * step.num << 24 {
        step = step + step;
    }
    let steps = half_to_even(size * Fraction::new(step.den, step.num));
    Fraction::whole(number.num.signum() * steps) * step
}

/// What a word spells: an optional minus, digits, and optionally a point and digits.
fn spelled(word: &[u8]) -> Option<Fraction> {
    let size = word.strip_prefix(b"-").unwrap_or(word);
    let parts: Vec<&[u8]> = size.split(|byte| *byte == b'.').collect();
    let digits = parts.concat();
    let right = parts.len() <= 2
        && parts.iter().all(|part| !part.is_empty())
        && digits.iter().all(u8::is_ascii_digit)
        && digits.len() <= MOST_DIGITS;
    if !right {
        return None;
    }
    let add = |value: i128, digit: &u8| 10 * value + i128::from(digit - b'0');
    let behind = digits.len() - parts[0].len();
    let sign = if word.len() > size.len() { -1 } else { 1 };
    let whole = sign * digits.iter().fold(0, add);
    Some(Fraction::new(whole, 10_i128.pow(behind as u32)))
}

/// The nearest line of the grid, a half to the even one; none where that is off the table.
pub fn grid(millimetres: Fraction) -> Option<i32> {
    let nearest = half_to_even(Fraction::whole(32) * millimetres);
    i32::try_from(nearest).ok().filter(|g| table::holds(*g))
}

/// g / 32 in the fewest digits: one step is 0.03125.
pub fn millimetres(g: i32) -> String {
    let (sign, size) = (if g < 0 { "-" } else { "" }, g.unsigned_abs());
    let rest = format!("{:05}", size % 32 * 3_125);
    let number = format!("{sign}{}.{}", size / 32, rest.trim_end_matches('0'));
    number.trim_end_matches('.').to_string()
}
