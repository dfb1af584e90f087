//! The text of the book on disk, by hand and damaged.

use crate::cases::damage::texts;
use crate::disk::text::{read, text};

const FIRST: &str = "strip book 1: renter, slot, left bottom right top in 1/32 mm = in mm\n";
const A: &str = "0 0 0 0 640 320 = 0 0 20 10 mm\n";
const B: &str = "0 3 640 320 641 336 = 20 10 20.03125 10.5 mm\n";
const C: &str = "1 0 640 0 1280 320 = 20 0 40 10 mm\n";
const END: &str = "end\n";

fn line(parts: &[&str]) -> usize {
    read(parts.concat().as_bytes()).map_or_else(|line| line, |_| 0)
}

#[test]
fn the_page_of_the_book() {
    let page = [FIRST, A, C, END].concat();
    let mut book = vec![0; 320];
    book[..5].copy_from_slice(&[1, 0, 0, 640, 320]);
    book[160..165].copy_from_slice(&[1, 640, 0, 1280, 320]);
    assert_eq!(read(page.as_bytes()), Ok(book.clone()));
    assert_eq!(text(&book), page.as_bytes());
    assert_eq!(text(&[0; 320]), [FIRST, END].concat().as_bytes());
}

#[test]
fn books() {
    for parts in [
        &[FIRST, END][..],
        &[FIRST, A, B, C, END],
        &[FIRST, C, END],
        &[
            FIRST,
            "1 31 -16383 -16383 16383 16383 = -511.96875 -511.96875 511.96875 511.96875 mm\n",
            END,
        ],
    ] {
        assert_eq!(line(parts), 0, "{parts:?}");
    }
}

#[test]
fn ends_and_beginnings() {
    for (parts, refused) in [
        (&[][..], 1),
        (&["\n"], 1),
        (&[END], 1),
        (&[A, END], 1),
        (&[FIRST.trim_end()], 1),
        (&["strip book 2", &FIRST[12..], END], 1),
        (&["\u{feff}", FIRST, END], 1),
        (&[FIRST], 2),
        (&[FIRST, "end"], 2),
        (&[FIRST, "end "], 2),
        (&[FIRST, "end\r\n"], 2),
        (&[FIRST, "\n", END], 2),
        (&[FIRST, FIRST, END], 2),
        (&[FIRST, A.trim_end()], 2),
        (&[FIRST, A, "0 3 64"], 3),
        (&[FIRST, A], 3),
        (&[FIRST, A, "end"], 3),
        (&[FIRST, END, "x"], 3),
        (&[FIRST, END, "\n"], 3),
        (&[FIRST, END, END], 3),
        (&[FIRST, END, A], 3),
        (&[FIRST, A, END, "\0"], 4),
    ] {
        assert_eq!(line(parts), refused, "{parts:?}");
    }
}

/// Lines that do not go on a text whose first strip is A.
const NO_STRIPS: &[(&str, &str)] = &[
    (A, "its slot is taken"),
    (
        "0 0 640 0 641 1 = 20 0 20.03125 0.03125 mm\n",
        "its slot is taken",
    ),
    (
        "0 1 639 319 641 321 = 19.96875 9.96875 20.03125 10.03125 mm\n",
        "it shares area with A",
    ),
    (
        "1 0 0 0 640 320 = 0 0 20 10 mm\n",
        "it is A's, of the other renter",
    ),
    (
        "0 1 640 0 640 1 = 20 0 20 0.03125 mm\n",
        "it has no breadth",
    ),
    (
        "0 1 641 1 640 2 = 20.03125 0.03125 20 0.0625 mm\n",
        "left is above right",
    ),
    (
        "0 1 640 0 16384 1 = 20 0 512 0.03125 mm\n",
        "it is off the table",
    ),
    (
        "0 32 640 0 641 1 = 20 0 20.03125 0.03125 mm\n",
        "there is no such slot",
    ),
    (
        "2 0 640 0 641 1 = 20 0 20.03125 0.03125 mm\n",
        "there is no such renter",
    ),
    (
        "0 1 640 0 641 1 = 20 0 20.0312 0.03125 mm\n",
        "the millimetres are others",
    ),
    (
        "0 1 640 0 641 2 = 20 0 20.03125 0.03125 mm\n",
        "the grid numbers are others",
    ),
    ("0 1 640 0 641 1 = 20.0 0 20.03125 0.03125 mm\n", "20.0"),
    ("0 1 640 -0 641 1 = 20 0 20.03125 0.03125 mm\n", "-0"),
    ("0 1 640 0 641 1 = 20 -0 20.03125 0.03125 mm\n", "-0"),
    ("0 01 640 0 641 1 = 20 0 20.03125 0.03125 mm\n", "01"),
    ("0 +1 640 0 641 1 = 20 0 20.03125 0.03125 mm\n", "+1"),
    ("0 1 640 0 641 1 = 20 0 20.03125 .03125 mm\n", ".03125"),
    (
        "0 1  640 0 641 1 = 20 0 20.03125 0.03125 mm\n",
        "two spaces",
    ),
    (
        "0 1 640 0 641 1 = 20 0 20.03125 0.03125 mm \n",
        "a space at the end",
    ),
    (
        " 0 1 640 0 641 1 = 20 0 20.03125 0.03125 mm\n",
        "a space before",
    ),
    ("0 1 640 0 641 1= 20 0 20.03125 0.03125 mm\n", "no space"),
    ("0 1 640 0 641 1 = 20 0 20.03125 0.03125\n", "no mm"),
    (
        "0 1 640 0 641 1 = 20 0 20.03125 0.03125 mm\r\n",
        "a carriage return",
    ),
    ("0 1 640 0 641 = 20 0 20.03125 mm\n", "a side is missing"),
    ("\n", "an empty line"),
];

#[test]
fn strips() {
    for (strip, what) in NO_STRIPS {
        assert_eq!(line(&[FIRST, A, strip, END]), 3, "{what}: {strip:?}");
    }
    let touching = "0 1 640 0 641 1 = 20 0 20.03125 0.03125 mm\n";
    assert_eq!(line(&[FIRST, A, touching, END]), 0);
    // A slot below one that was told, and a renter below one that was.
    assert_eq!(line(&[FIRST, B, A, END]), 3);
    assert_eq!(line(&[FIRST, C, A, END]), 3);
    assert_eq!(line(&[FIRST, A, B, C, A, END]), 5);
}

/// Each kind comes; what is left as it was is a book's, and what is a book's is that book's one text.
#[test]
fn damaged_in_many_ways() {
    let mut books = 0;
    for (k, (what, bytes)) in texts(5, 1_000).enumerate() {
        let lines = bytes.split_inclusive(|byte| *byte == b'\n').count();
        match read(&bytes) {
            Ok(book) => {
                books += 1;
                assert_eq!(text(&book), bytes, "{k} {what}");
            }
            Err(line) => {
                assert!(1 <= line && line <= lines + 1, "{k} {what}");
                assert_ne!(what, "nothing");
                before_begin_a_book(&bytes, line);
            }
        }
    }
    assert!((40..200).contains(&books), "{books} are books");
}

/// With the last line put behind those before the one that is refused, they are a book's, or end with one's.
fn before_begin_a_book(bytes: &[u8], line: usize) {
    let lines = bytes.split_inclusive(|byte| *byte == b'\n');
    let before: Vec<u8> = lines.take(line - 1).flatten().copied().collect();
    let ended = [&before, END.as_bytes()].concat();
    assert!(line == 1 || read(&before).is_ok() || read(&ended).is_ok());
}
