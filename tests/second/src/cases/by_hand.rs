//! Lines with their answers, worked out by hand: both programs are run on them, and the tests hold this one to them.

use super::line::all;

type Answered = (&'static str, &'static str);

pub fn lines() -> Vec<Vec<u8>> {
    let lists: [&[Answered]; 5] = [&DESK, &WORDS, &CORNER_WINDOWS, &MILLIMETRES, &BOOKS];
    all(&lists.concat().iter().map(|pair| pair.0).collect::<Vec<_>>())
}

/// The example on the desk's own page.
pub const DESK: [Answered; 5] = [
    ("lb 0 0 10 10 -5 5 15 5", "0 0 1 1 4 3 4 0 5 10 5 0 1"),
    ("cs 0 0 10 10 5 20 40 5", "0 0 0 0 1 0 1 0 0 0 0 1 255 255"),
    ("batch 6 0 0 10 10 4 -5 5 15 5", "0 0 5 0 0 5 10 5 7000005"),
    (
        "batch 4 0 0 10 10 4 -5 5 15 5",
        "8 5 0 7000000 7000001 7000002 7000003",
    ),
    ("lb 0 0 10 10 1 2", "?"),
];

/// What is a number on a line, and what is not.
pub const WORDS: [Answered; 22] = [
    ("back -0", "0 0 00000000"),
    ("back 007", "0 0 3e600000"),
    ("back -12", "0 0 bec00000"),
    ("back -00032", "0 0 bf800000"),
    ("", "?"),
    ("back ", "?"),
    ("back -", "?"),
    ("back +1", "?"),
    ("back 1.0", "?"),
    ("back 1\r", "?"),
    // A doubled space and a space at the end make an empty word.
    ("back  1", "?"),
    ("back 1 ", "?"),
    // The ends of what an i32 holds.
    ("back 2147483647", "6 0 00000000"),
    ("back 2147483648", "?"),
    ("back -2147483648", "6 0 00000000"),
    ("back -2147483649", "?"),
    // Hexadecimal digits of either case, in pairs; a minus for no bytes.
    ("mm2 3F800000 bf800000", "0 0 32 -32"),
    ("mm2 3f80000 bf800000", "?"),
    ("draw 0 0aFF", "11 0 0 0 0 0 0"),
    ("draw 0 1", "?"),
    ("draw 0 -", "11 0 0 0 0 0 0"),
    ("draw 40961 -", "?"),
];

pub const CORNER_WINDOWS: [Answered; 12] = [
    // The sources' hexagon, counterclockwise and, as printed, clockwise.
    (
        "cb 12 1 0 2 0 2 3 1 3 0 2 0 1 -1 1 3 3",
        "0 0 1 1 4 3 4 4 1",
    ),
    (
        "cb 12 1 0 0 1 0 2 1 3 2 3 2 0 -1 1 3 3",
        "3 0 0 0 1 0 1 255 255",
    ),
    // A star, which turns left at all five corners; a repeated corner; three corners on a line.
    (
        "cb 10 0 3 -2 -3 3 1 -3 1 2 -3 -1 1 3 3",
        "3 0 0 0 1 0 1 255 255",
    ),
    ("cb 8 0 0 10 0 10 0 0 10 -1 1 3 3", "3 0 0 0 1 0 1 255 255"),
    ("cb 8 0 0 5 0 10 0 0 10 -1 1 3 3", "3 0 0 0 1 0 1 255 255"),
    // No corner and two; an odd length, before the number off the table.
    ("cb 0 1 2 3 4", "3 0 0 0 1 0 1 255 255"),
    ("cb 4 0 0 10 0 -1 1 3 3", "3 0 0 0 1 0 1 255 255"),
    (
        "cb 7 16384 0 10 0 10 10 0 -1 1 3 3",
        "3 0 0 0 1 0 1 255 255",
    ),
    // A number off the table, before the turn to the right; the stroke last.
    ("cb 6 0 0 0 10 10 -16384 -1 1 3 3", "2 5 0 0 1 0 1 255 255"),
    (
        "cb 8 0 0 10 0 10 10 0 10 0 16384 0 16384",
        "6 1 0 0 1 0 1 255 255",
    ),
    // Along an edge's line, on it and beside it.
    ("cb 8 0 0 10 0 10 10 0 10 -5 0 15 0", "0 0 1 1 4 3 4 3 1"),
    (
        "cb 8 0 0 10 0 10 10 0 10 -5 -1 15 -1",
        "0 0 0 0 1 0 1 255 255",
    ),
];

/// Each float by its bits.
pub const MILLIMETRES: [Answered; 15] = [
    // 511.96875, and the f32 below 511.984375, with either sign.
    ("mm2 43fffc00 43fffdff", "0 0 16383 16383"),
    ("mm2 c3fffc00 c3fffdff", "0 0 -16383 -16383"),
    // 511.984375 is 16383.5 on the grid; at either place, with either sign.
    ("mm2 43fffe00 43fffc00", "10 0 0 0"),
    ("mm2 43fffc00 43fffe00", "10 1 0 0"),
    ("mm2 c3fffe00 c3fffc00", "10 0 0 0"),
    // -0.0 and the least f32 above 0; a half and one and a half on the grid; the same below 0.
    ("mm2 80000000 00000001", "0 0 0 0"),
    ("mm2 3c800000 3d400000", "0 0 0 2"),
    ("mm2 bc800000 bd400000", "0 0 0 -2"),
    // The first faulty number decides: a NaN, an infinity, 511.984375.
    ("mm2 7fc00000 7f800000", "9 0 0 0"),
    ("mm2 ff800000 7fc00000", "10 0 0 0"),
    ("mm2 43fffe00 7fc00000", "10 0 0 0"),
    // The greatest f32, of which 32 times overflows.
    ("mm2 00000000 7f7fffff", "10 1 0 0"),
    ("back 16383", "0 0 43fffc00"),
    ("back 16384", "6 0 00000000"),
    ("back -16384", "6 0 00000000"),
];

/// The strip book's lines as lines of the desk; what it does stands in `book_by_hand`.
pub const BOOKS: [Answered; 52] = [
    // A book of no numbers, and of some, which come back as they are usually written.
    ("enter 0 0 1 2 3 4", "23 0 0"),
    ("enter -0 -0 1 2 3 4", "23 0 0"),
    ("enter 0 2 1 2 3 4", "19 0 0"),
    (
        "enter 5 -0 007 -2147483648 2147483647 -00012 1 1 2 3 4",
        "23 0 0 0 7 -2147483648 2147483647 -12",
    ),
    ("release 0 01 -0", "23 0"),
    ("release 0 -1 -0", "19 0"),
    ("release 3 1 2 3 0 2147483647", "23 0 1 2 3"),
    ("release 3 1 2 3 2147483647 0", "19 0 1 2 3"),
    ("strips 0 0 0", "23 0 0"),
    ("strips 0 0 2", "19 0 0"),
    ("strips 02 3 1 2 3 1", "23 0 0 7000000 7000001"),
    ("strips 2 3 1 2 3 -2147483648", "19 0 0 7000000 7000001"),
    // A count that is not the book's, or none that a book may have; no renter.
    ("enter", "?"),
    ("enter 0", "?"),
    ("enter 0 1 2 3 4", "?"),
    ("enter 1 0 1 2 3 4", "?"),
    ("enter 0 0 0 1 2 3 4", "?"),
    ("enter -1 0 1 2 3 4", "?"),
    ("enter 20001 0 1 2 3 4", "?"),
    ("enter 4294967296 0 1 2 3 4", "?"),
    ("enter 18446744073709551616 0 1 2 3 4", "?"),
    ("release", "?"),
    ("release 0", "?"),
    ("release 0 0", "?"),
    ("release 1 0 0", "?"),
    ("release 0 0 0 0", "?"),
    ("release -1 0 0", "?"),
    ("release 20001 0 0", "?"),
    ("strips", "?"),
    ("strips 0", "?"),
    ("strips 0 0", "?"),
    ("strips 0 1 0", "?"),
    ("strips 0 0 0 0", "?"),
    ("strips 0 -1 0", "?"),
    ("strips 0 20001 0", "?"),
    ("strips -1 0 0", "?"),
    ("strips 40961 0 0", "?"),
    // Spaces, and numbers that 32 bits do not hold: in the book, as the renter, in the window, as the slot.
    ("enter 0  0 1 2 3 4", "?"),
    ("enter 0 0 1 2 3 4 ", "?"),
    ("release 0 0 0\r", "?"),
    ("strips 0 0  0", "?"),
    ("strips 0 0 0\t", "?"),
    ("enter 1 2147483648 0 1 2 3 4", "?"),
    ("enter 0 2147483648 1 2 3 4", "?"),
    ("enter 1 0 0 1 2 3 -2147483649", "?"),
    ("release 1 -2147483649 0 0", "?"),
    ("release 0 -2147483649 0", "?"),
    ("release 0 0 2147483648", "?"),
    ("strips 0 1 2147483648 0", "?"),
    ("strips 0 0 2147483648", "?"),
    ("strips 0 0 0x0", "?"),
    ("strips 0 0 -", "?"),
];
