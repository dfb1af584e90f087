//! Words for a strip's side in millimetres: such as go to a given line of the grid, and such as go elsewhere or nowhere.

use super::numbers::on_table;
use crate::disk::decimal::{grid, millimetres, value, MOST_DIGITS};
use crate::random::Random;

/// One of the words that go to this line; the shortest where that alone has nine digits or fewer.
pub fn spelled(random: &mut Random, g: i32) -> String {
    let word = match random.below(8) {
        0..=3 => millimetres(g),
        4 => padded(random, &millimetres(g)),
        5 if g % 2 == 0 => half_beside(random, g),
        _ => beside(random, g),
    };
    // What an f32 does not tell from a half may go to the other line.
    if value(word.as_bytes()).and_then(grid) == Some(g) {
        word
    } else {
        millimetres(g)
    }
}

/// Zeros before it, and behind its point.
fn padded(random: &mut Random, word: &str) -> String {
    let room = MOST_DIGITS.saturating_sub(digits(word));
    let before = random.below(room + 1);
    let behind = random.below(room - before + 1);
    let (sign, size) = match word.strip_prefix('-') {
        Some(size) => ("-", size),
        None => ("", word),
    };
    let point = if size.contains('.') || behind == 0 {
        ""
    } else {
        "."
    };
    let [before, behind] = [before, behind].map(|count| "0".repeat(count));
    format!("{sign}{before}{size}{point}{behind}")
}

/// The half of a step above or below an even line, which goes to it.
fn half_beside(random: &mut Random, g: i32) -> String {
    let halves = 2 * i64::from(g) + random.pick(&[-1, 1]);
    decimal(halves * 15_625, 6)
}

/// Some number that is nearer to this line than to any other, with as many digits behind the point as may be.
fn beside(random: &mut Random, g: i32) -> String {
    let behind = 1 + random.below(8) as u32;
    let unit = 10_i64.pow(behind);
    // A number k of units lies within half a step when |64 k - 2 g unit| < unit.
    let middle = 2 * i64::from(g) * unit;
    let low = (middle - unit).div_euclid(64) + 1;
    let high = (middle + unit - 1).div_euclid(64);
    if low > high {
        return millimetres(g);
    }
    let ends = [low, high];
    let inside = low + (random.bits() % (high - low + 1) as u64) as i64;
    let k = if random.one_in(2) {
        random.pick(&ends)
    } else {
        inside
    };
    decimal(k, behind)
}

/// k units of 10^-behind.
fn decimal(k: i64, behind: u32) -> String {
    let unit = 10_u64.pow(behind);
    let (sign, size) = (if k < 0 { "-" } else { "" }, k.unsigned_abs());
    let width = behind as usize;
    format!("{sign}{}.{:0width$}", size / unit, size % unit)
}

fn digits(word: &str) -> usize {
    word.bytes().filter(u8::is_ascii_digit).count()
}

/// Numbers that go wherever they go: halves, what lies a millionth beside them, the ends of the table, far off, any nine digits.
pub fn anywhere(random: &mut Random) -> String {
    let half = (2 * i64::from(on_table(random)) + 1) * 15_625;
    match random.below(6) {
        0 => decimal(half, 6),
        1 => decimal(half + random.pick(&[-1, 1]), 6),
        2 | 3 => random.pick(ODD).to_string(),
        4 => decimal(random.between(-999_999_999, 999_999_999).into(), 6),
        _ => random.between(-999_999_999, 999_999_999).to_string(),
    }
}

/// Numbers at the edges of what is taken.
pub const ODD: &[&str] = &[
    "511.96875",
    "-511.96875",
    "511.984374",
    "511.984375",
    "511.984376",
    "-511.984374",
    "-511.984375",
    "-511.984376",
    "0511.98437",
    "512",
    "-512",
    "999999999",
    "-999999999",
    "99999999.9",
    "0.015625",
    "0.046875",
    "-0.015625",
    "-0.046875",
    "0.01562501",
    "0.01562499",
    "0.04687499",
    "0.04687501",
    "0.00000000",
    "0.00000001",
    "-0.00000001",
    "-0",
    "000000000",
    "-00000.000",
    "000000001",
];

/// What is no number of millimetres.
pub const NO_NUMBERS: &[&str] = &[
    "1.5.2",
    "+1",
    "1e3",
    ".5",
    "5.",
    "--1",
    "-",
    ".",
    "-.5",
    "-5.",
    "1234567890",
    "0000000000",
    "0.123456789",
    "-1.000000000",
    "0,5",
    "0x10",
    "1_0",
    "inf",
    "NaN",
    "1-",
    "1..5",
    "½",
    "1\t",
];
