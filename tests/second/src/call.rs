//! One line of the desk as a call; whatever is no call is none and gets `?`.

use crate::batch::Touches;

const LONGEST_LINE: usize = 400_000;
const MOST_ROOM: i128 = 40_960;
const MOST_WINDOW: i128 = 64;
const MOST_LIST: i128 = 20_000;
const MOST_OUTLINE: i128 = 256;
const MOST_FILE: usize = 70_000;
/// The side order's own type is read as 32 bits without a sign.
const MOST_ORDER: i128 = u32::MAX as i128;

#[derive(Clone, Debug)]
pub enum Call {
    Point([u32; 2]),
    Window([u32; 4]),
    Back(i32),
    LiangBarsky([i32; 4], [i32; 4]),
    CohenSutherland([i32; 4], [i32; 4]),
    CrossProduct([i32; 4], [i32; 4]),
    CyrusBeck(Vec<i32>, [i32; 4]),
    Batch(Touches, usize, [i32; 4], Vec<i32>),
    Outline(u32, usize, [i32; 4], Vec<i32>),
    Draw(usize, Vec<u8>),
    /// A strip book and the renter who calls; before them the room, behind them the strip or the slot.
    Enter(Vec<i32>, i32, [i32; 4]),
    Release(Vec<i32>, i32, i32),
    Strips(usize, Vec<i32>, i32),
}

pub fn read(line: &[u8]) -> Option<Call> {
    if line.len() > LONGEST_LINE {
        return None;
    }
    let mut words = Words(line.split(|byte| *byte == b' ').collect());
    words.0.reverse();
    let call = words.call()?;
    words.0.is_empty().then_some(call)
}

/// The words not yet read, the next one last.
struct Words<'a>(Vec<&'a [u8]>);

impl Words<'_> {
    fn call(&mut self) -> Option<Call> {
        Some(match self.0.pop()? {
            b"mm2" => Call::Point(self.floats()?),
            b"mm4" => Call::Window(self.floats()?),
            b"back" => Call::Back(self.grid()?),
            b"lb" => Call::LiangBarsky(self.four()?, self.four()?),
            b"cs" => Call::CohenSutherland(self.four()?, self.four()?),
            b"xp" => Call::CrossProduct(self.four()?, self.four()?),
            b"cb" => Call::CyrusBeck(self.list(MOST_WINDOW)?, self.four()?),
            b"batch" => self.batch(Touches::LeftOut)?,
            b"touches" => self.batch(Touches::Given)?,
            b"outline" => {
                let order = self.number(0, MOST_ORDER)? as u32;
                Call::Outline(order, self.room()?, self.four()?, self.list(MOST_OUTLINE)?)
            }
            b"draw" => Call::Draw(self.room()?, file(self.0.pop()?)?),
            b"enter" => Call::Enter(self.list(MOST_LIST)?, self.grid()?, self.four()?),
            b"release" => Call::Release(self.list(MOST_LIST)?, self.grid()?, self.grid()?),
            b"strips" => Call::Strips(self.room()?, self.list(MOST_LIST)?, self.grid()?),
            _ => return None,
        })
    }

    fn batch(&mut self, touches: Touches) -> Option<Call> {
        let (room, window) = (self.room()?, self.four()?);
        Some(Call::Batch(touches, room, window, self.list(MOST_LIST)?))
    }

    fn number(&mut self, least: i128, most: i128) -> Option<i128> {
        let value = number(self.0.pop()?)?;
        (least <= value && value <= most).then_some(value)
    }

    fn grid(&mut self) -> Option<i32> {
        Some(self.number(i32::MIN.into(), i32::MAX.into())? as i32)
    }

    fn four(&mut self) -> Option<[i32; 4]> {
        Some([self.grid()?, self.grid()?, self.grid()?, self.grid()?])
    }

    fn room(&mut self) -> Option<usize> {
        Some(self.number(0, MOST_ROOM)? as usize)
    }

    /// A count, then that many numbers.
    fn list(&mut self, most: i128) -> Option<Vec<i32>> {
        let count = self.number(0, most)?;
        (0..count).map(|_| self.grid()).collect()
    }

    fn floats<const N: usize>(&mut self) -> Option<[u32; N]> {
        let mut bits = [0; N];
        for place in bits.iter_mut() {
            let bytes: [u8; 4] = pairs(self.0.pop()?)?.try_into().ok()?;
            *place = u32::from_be_bytes(bytes);
        }
        Some(bits)
    }
}

/// An optional `-`, then digits; none too if it is longer than any parameter holds.
fn number(word: &[u8]) -> Option<i128> {
    let digits = word.strip_prefix(b"-").unwrap_or(word);
    if digits.is_empty() || !digits.iter().all(u8::is_ascii_digit) {
        return None;
    }
    let zeros = digits.iter().take_while(|digit| **digit == b'0').count();
    if digits.len() - zeros > 30 {
        return None;
    }
    let add = |value: i128, digit: &u8| 10 * value + i128::from(digit - b'0');
    let size = digits.iter().fold(0, add);
    Some(if word.len() > digits.len() {
        -size
    } else {
        size
    })
}

fn file(word: &[u8]) -> Option<Vec<u8>> {
    let bytes = if word == b"-" {
        Vec::new()
    } else {
        pairs(word)?
    };
    (bytes.len() <= MOST_FILE).then_some(bytes)
}

/// Bytes as pairs of hexadecimal digits, at least one pair.
fn pairs(word: &[u8]) -> Option<Vec<u8>> {
    if word.is_empty() || word.len() % 2 == 1 {
        return None;
    }
    let digit = |byte: u8| (byte as char).to_digit(16);
    word.chunks(2)
        .map(|pair| Some((16 * digit(pair[0])? + digit(pair[1])?) as u8))
        .collect()
}
