//! The strip book: 64 slots of five numbers each, a mark (1 in use, 0 free), then the strip's window.
//! Its two halves belong to the renters 0 and 1; each names the slots of its own half 0 to 31.
//! A caller lends a list of numbers and says which renter he is; every call tests first the renter, then the book.

use crate::rectangle::{self, Rectangle};
use crate::refusal::{at, first, when, Refusal};

pub const RENTERS: usize = 2;
/// The slots of one renter.
pub const HALF: usize = 32;
/// An empty book is all zeros, a freed slot five of them.
pub const FREED: [i32; 5] = [0; 5];
const FREE: i32 = 0;
const IN_USE: i32 = 1;

pub type Strip = [i32; 4];

/// Booking tests a strip and enters it: the lowest free slot of the renter's half, and the book with the strip in it.
/// It looks at the strips of both halves, but a renter without a free slot is not told of them.
pub fn enter(book: &[i32], renter: i32, strip: Strip) -> Result<(usize, Vec<i32>), Refusal> {
    let renter = admitted(book, renter)?;
    let [range, area] = rectangle::faults(strip);
    let taken = marks(half(book, renter)).take_while(|mark| *mark == IN_USE);
    let lowest_free = taken.count();
    let full = lowest_free == HALF;
    let shared = strips(book).any(|other| share_area(strip, other));
    first(&[range, area, when(full, 17), when(shared, 16)])?;
    let [left, bottom, right, top] = strip;
    let five = [IN_USE, left, bottom, right, top];
    Ok((lowest_free, put(book, renter, lowest_free, five)))
}

/// Releasing frees a slot in use of the renter's half: the book with five zeros there.
pub fn release(book: &[i32], renter: i32, slot: i32) -> Result<Vec<i32>, Refusal> {
    let renter = admitted(book, renter)?;
    let in_use = |slot: usize| marks(half(book, renter)).nth(slot) == Some(IN_USE);
    let entered = usize::try_from(slot).is_ok_and(in_use);
    first(&[when(!entered, 18)])?;
    Ok(put(book, renter, slot as usize, FREED))
}

/// The listing is the slot and the four numbers of each strip of the renter, in slot order.
pub fn listing(book: &[i32], renter: i32, room: usize) -> Result<Vec<i32>, Refusal> {
    let renter = admitted(book, renter)?;
    let list: Vec<i32> = entered(half(book, renter))
        .flat_map(|(slot, [left, bottom, right, top])| [slot as i32, left, bottom, right, top])
        .collect();
    let short = (list.len() > room).then_some(list.len());
    first(&[at(short, 8)])?;
    Ok(list)
}

/// The renter, if there is one of this number (19) and the numbers are a book (23).
fn admitted(book: &[i32], renter: i32) -> Result<usize, Refusal> {
    let unknown = !(0..RENTERS as i32).contains(&renter);
    first(&[when(unknown, 19), when(!is_book(book), 23)])?;
    Ok(renter as usize)
}

/// 320 numbers, each mark 0 or 1, no strip that 2 or 3 would refuse, and no two that share area, of whichever renter.
fn is_book(numbers: &[i32]) -> bool {
    let taken = |strip: Strip| rectangle::faults(strip) == [None, None];
    numbers.len() == RENTERS * HALF * FREED.len()
        && marks(numbers).all(|mark| mark == FREE || mark == IN_USE)
        && strips(numbers).all(taken)
        && !two_share_area(&strips(numbers).collect::<Vec<_>>())
}

/// The numbers of a renter's own slots.
fn half(book: &[i32], renter: usize) -> &[i32] {
    let length = HALF * FREED.len();
    &book[renter * length..][..length]
}

/// The marks of a book or of a half, in slot order.
fn marks(slots: &[i32]) -> impl Iterator<Item = i32> + '_ {
    slots.chunks_exact(FREED.len()).map(|slot| slot[0])
}

/// The strips in use of a book or of a half, each with its slot there, in slot order; what a free slot holds does not matter.
fn entered(slots: &[i32]) -> impl Iterator<Item = (usize, Strip)> + '_ {
    let slots = slots.chunks_exact(FREED.len()).enumerate();
    let in_use = slots.filter(|(_, five)| five[0] == IN_USE);
    in_use.map(|(slot, five)| (slot, [five[1], five[2], five[3], five[4]]))
}

/// The strips of both renters.
pub fn strips(book: &[i32]) -> impl Iterator<Item = Strip> + '_ {
    entered(book).map(|(_, strip)| strip)
}

fn two_share_area(strips: &[Strip]) -> bool {
    let mut pairs = (0..strips.len()).flat_map(|k| (0..k).map(move |j| (j, k)));
    pairs.any(|(j, k)| share_area(strips[j], strips[k]))
}

/// What the two have in common has area; strips that touch share none.
pub fn share_area(one: Strip, other: Strip) -> bool {
    let [one, other] = [one, other].map(Rectangle::of);
    one.common(&other).has_area()
}

/// The numbers with these five in a renter's slot.
fn put(book: &[i32], renter: usize, slot: usize, five: [i32; 5]) -> Vec<i32> {
    let mut after = book.to_vec();
    after[(renter * HALF + slot) * five.len()..][..five.len()].copy_from_slice(&five);
    after
}
