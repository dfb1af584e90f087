//! The strip book as a plain list of strips, each with its renter and slot, to hold the book of marks and numbers against.

use super::heard::Heard;
use crate::cases::book_asked::Asked;
use crate::refusal::{at, first, when, Refusal};
use crate::strip_book::Strip;

#[derive(Default)]
pub struct PlainList(Vec<Line>);

#[derive(Clone, Copy)]
struct Line {
    renter: i32,
    slot: i32,
    strip: Strip,
}

/// What a list says to a call; where the numbers are no book there is none.
pub fn of_list(list: Option<&mut PlainList>, renter: i32, asked: Asked) -> Heard {
    first(&[
        when(renter != 0 && renter != 1, 19),
        when(list.is_none(), 23),
    ])?;
    let list = list.expect("refused by 23");
    match asked {
        Asked::Enter(strip) => list.enter(renter, strip).map(|slot| vec![slot]),
        Asked::Release(slot) => list.release(renter, slot).map(|_| vec![]),
        Asked::Strips(room) => list.listing(renter, room),
    }
}

impl PlainList {
    /// The strips that lent numbers stand for; none if not each of them could have been entered beside the others.
    pub fn of(numbers: &[i32]) -> Option<PlainList> {
        let mut list = PlainList::default();
        for (k, five) in (0..).zip(numbers.chunks(5)) {
            match *five {
                [0, _, _, _, _] => {}
                [1, left, bottom, right, top] => {
                    let strip = [left, bottom, right, top];
                    first(&PlainList::faults(strip)).ok()?;
                    first(&[list.clash(strip)]).ok()?;
                    list.note(k / 32, k % 32, strip);
                }
                _ => return None,
            }
        }
        (numbers.len() == 320).then_some(list)
    }

    fn note(&mut self, renter: i32, slot: i32, strip: Strip) {
        self.0.push(Line {
            renter,
            slot,
            strip,
        });
    }

    fn enter(&mut self, renter: i32, strip: Strip) -> Result<i32, Refusal> {
        let own = self.own(renter);
        let full = when(own.len() == 32, 17);
        let [off, flat] = PlainList::faults(strip);
        first(&[off, flat, full, self.clash(strip)])?;
        let missing = |slot: &i32| own.iter().all(|line| line.slot != *slot);
        let slot = (0..).find(missing).expect("fewer than 32 are taken");
        self.note(renter, slot, strip);
        Ok(slot)
    }

    fn release(&mut self, renter: i32, slot: i32) -> Result<(), Refusal> {
        let before = self.0.len();
        self.0
            .retain(|line| (line.renter, line.slot) != (renter, slot));
        first(&[when(self.0.len() == before, 18)])
    }

    fn listing(&self, renter: i32, room: usize) -> Result<Vec<i32>, Refusal> {
        let mut own = self.own(renter);
        own.sort_by_key(|line| line.slot);
        let needed = 5 * own.len();
        first(&[at((room < needed).then_some(needed), 8)])?;
        let five = |line: &Line| [vec![line.slot], line.strip.to_vec()].concat();
        Ok(own.iter().flat_map(five).collect())
    }

    fn own(&self, renter: i32) -> Vec<Line> {
        let lines = self.0.iter().filter(|line| line.renter == renter);
        lines.copied().collect()
    }

    fn faults(strip: Strip) -> [Option<Refusal>; 2] {
        let [left, bottom, right, top] = strip;
        let off = strip.iter().position(|n| n.unsigned_abs() > 16_383);
        [at(off, 2), when(left >= right || bottom >= top, 3)]
    }

    fn clash(&self, strip: Strip) -> Option<Refusal> {
        when(self.0.iter().any(|line| !apart(strip, line.strip)), 16)
    }

    /// The numbers of the book that no other than these strips have been in.
    pub fn numbers(&self) -> Vec<i32> {
        let mut numbers = vec![0; 320];
        for line in &self.0 {
            let start = 5 * (32 * line.renter + line.slot) as usize;
            numbers[start] = 1;
            numbers[start + 1..start + 5].copy_from_slice(&line.strip);
        }
        numbers
    }
}

/// One lies wholly beside the other, below it or above it.
pub fn apart(one: Strip, other: Strip) -> bool {
    let before = |axis: usize| one[axis + 2] <= other[axis] || other[axis + 2] <= one[axis];
    before(0) || before(1)
}
