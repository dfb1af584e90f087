//! f32 millimetres to the grid and back, from the bits alone: no float is computed with.

use crate::fraction::Fraction;
use crate::refusal::Refusal;
use crate::rounding::half_to_even;
use crate::table;

pub const NAN: u8 = 9;
pub const OFF: u8 = 10;

/// The grid number of one f32, or the number it is refused with.
pub fn grid(bits: u32) -> Result<i32, u8> {
    let (exponent, digits) = (bits >> 23 & 0xff, bits & 0x7f_ffff);
    if exponent == 0xff {
        return Err(if digits == 0 { OFF } else { NAN });
    }
    let size = match thirty_two_times(exponent, digits) {
        Some(size) => size,
        None => return Err(OFF),
    };
    let sign = if bits >> 31 == 1 { -1 } else { 1 };
    let nearest = half_to_even(Fraction::whole(sign) * size);
    match i32::try_from(nearest) {
        Ok(g) if table::holds(g) => Ok(g),
        _ => Err(OFF),
    }
}

/// 32 times the size of a finite f32; none if it is 2^23 or more, far off the table.
fn thirty_two_times(exponent: u32, digits: u32) -> Option<Fraction> {
    // A subnormal lacks the leading 1 and has the least exponent.
    let lead = if exponent == 0 { 0 } else { 1 << 23 };
    let halvings = 145 - i64::from(exponent.max(1));
    match halvings {
        ..=0 => None,
        // Below 2^-76 every size rounds as 0 does, and 2^halvings would pass i128.
        101.. => Some(Fraction::ZERO),
        _ => Some(Fraction::new(i128::from(lead + digits), 1 << halvings)),
    }
}

/// The numbers are taken in order and the first faulty one decides.
pub fn all<const N: usize>(bits: [u32; N]) -> Result<[i32; N], Refusal> {
    let mut numbers = [0; N];
    for place in 0..N {
        numbers[place] = grid(bits[place]).map_err(|number| Refusal { number, place })?;
    }
    Ok(numbers)
}

pub fn back(g: i32) -> Result<u32, Refusal> {
    if table::holds(g) {
        Ok(bits_of(g))
    } else {
        Err(Refusal {
            number: 6,
            place: 0,
        })
    }
}

/// The bits of g / 32, for every |g| up to 2^23: the leading 1 of |g| sets the exponent.
pub fn bits_of(g: i32) -> u32 {
    let size = g.unsigned_abs();
    if size == 0 {
        return 0;
    }
    let lead = size.ilog2();
    let sign = u32::from(g < 0) << 31;
    let exponent = (127 + lead - 5) << 23;
    let digits = (size - (1 << lead)) << (23 - lead);
    sign | exponent | digits
}
