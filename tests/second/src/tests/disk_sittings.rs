//! Runs of the program `book`, by hand and from random lists.

use crate::cases::commands::list;
use crate::disk::keeping::{sitting, Keeper};
use crate::disk::text::read;
use crate::lines::lines;
use crate::strip_book::listing;
use std::collections::BTreeMap;

const FIRST: &str = "strip book 1: renter, slot, left bottom right top in 1/32 mm = in mm\n";

/// Commands and their answers in turn; several lines for a listing.
const MORNING: &[(&str, &str)] = &[
    ("show", "none"),
    ("strips 0", "none"),
    ("# the first", ""),
    ("book 0 0 0 20 10", "0 0 0 0 640 320 = 0 0 20 10 mm"),
    ("book 1 20 0 40.015 10", "1 0 640 0 1280 320 = 20 0 40 10 mm"),
    (
        "book 1 0 0 20 10",
        "16 0 0 0 640 320 = 0 0 20 10 mm: the strip shares area with one in the book",
    ),
    (
        "book 7 0 0 20 10",
        "19 0 0 0 640 320 = 0 0 20 10 mm: there is no such renter: they are 0 and 1",
    ),
    (
        "book 7 0 0 512 x",
        "?",
    ),
    (
        "book 7 0 0 512 900",
        "10 2: a number of millimetres is infinite or off the table",
    ),
    (
        "book 7 5 0 5 -1",
        "19 0 160 0 160 -32 = 5 0 5 -1 mm: there is no such renter: they are 0 and 1",
    ),
    (
        // Without area once it is on the grid.
        "book 0 5 0 5.015625 -1",
        "3 0 160 0 160 -32 = 5 0 5 -1 mm: the window has no area, or its corners are not a strictly convex ring",
    ),
    ("book 0 -1.5 -1 0 -0.5", "0 1 -48 -32 0 -16 = -1.5 -1 0 -0.5 mm"),
    ("release 0 0", "0 0 0 0 640 320 = 0 0 20 10 mm"),
    ("release 0 0", "18 0: the slot to release is not one of the renter's slots in use"),
    ("release 0 32", "18 0: the slot to release is not one of the renter's slots in use"),
    ("release 2 32", "19 0: there is no such renter: they are 0 and 1"),
    ("strips -1", "19 0: there is no such renter: they are 0 and 1"),
    ("strips 0", "0 1 -48 -32 0 -16 = -1.5 -1 0 -0.5 mm"),
    ("book 0 0 0 0.046875 0.03", "0 0 0 0 2 1 = 0 0 0.0625 0.03125 mm"),
    (
        "show",
        "0 0 0 0 2 1 = 0 0 0.0625 0.03125 mm\n0 1 -48 -32 0 -16 = -1.5 -1 0 -0.5 mm\n1 0 640 0 1280 320 = 20 0 40 10 mm",
    ),
];

#[test]
fn a_morning() {
    let mut keeper = Keeper::on(None).unwrap();
    for (command, expected) in MORNING {
        let answers = keeper.answers(command.as_bytes()).join("\n");
        assert_eq!(answers, *expected, "{command}");
    }
    let strips = MORNING.last().unwrap().1;
    let text = format!("{FIRST}{strips}\nend\n");
    assert_eq!(keeper.text.unwrap(), text.as_bytes());
}

#[test]
fn the_first_booking_makes_the_file() {
    let after = |commands: &str| sitting(None, commands.as_bytes()).unwrap();
    for commands in ["", "show\n", "strips 0", "book 0 0 0 0 0", "release 0 0\nx"] {
        assert_eq!(after(commands).text, None, "{commands:?}");
    }
    let emptied = after("book 0 0 0 20 10\nrelease 0 0");
    assert_eq!(emptied.text.unwrap(), [FIRST, "end\n"].concat().as_bytes());
    assert!(!emptied.complained);
    assert!(after("book 0 0 0 20 10\nrelease 0 1").complained);
    assert!(after("x").complained && !after("#x\n\n").complained);
}

#[test]
fn full_slots() {
    let rows: Vec<String> = (0..33)
        .map(|k| format!("book 1 {k} 0 {} 1", k + 1))
        .collect();
    let last = "book 1 0 0 1 1\nrelease 1 4\nbook 1 9 0 10 1\nbook 1 4 0 5 1";
    let done = sitting(None, (rows.join("\n") + "\n" + last).as_bytes()).unwrap();
    let full = "1024 0 1056 32 = 32 0 33 1 mm: none of the renter's slots is free for the strip";
    assert_eq!(done.answers[31], "1 31 992 0 1024 32 = 31 0 32 1 mm");
    assert_eq!(done.answers[32], format!("17 0 {full}"));
    // 17 is told before 16.
    assert!(done.answers[33].starts_with("17 0 0 0 32 32 = 0 0 1 1 mm: "));
    assert_eq!(done.answers[34], "1 4 128 0 160 32 = 4 0 5 1 mm");
    assert!(done.answers[35].starts_with("16 0 288 0 320 32 = 9 0 10 1 mm: "));
    assert_eq!(done.answers[36], "1 4 128 0 160 32 = 4 0 5 1 mm");
}

/// A list has as many lines as asked for, its runs fill and empty both renters' slots, and every way to be answered comes.
#[test]
fn lists_of_commands() {
    let list = list(1, 3_000);
    assert!((2_999..=3_000).contains(&lines(&list).len()));
    let mut keeper = Keeper::on(None).unwrap();
    let mut heard: BTreeMap<String, usize> = BTreeMap::new();
    let [mut filled, mut emptied] = [[0; 2]; 2];
    for line in lines(&list) {
        let before = [0, 1].map(|renter| count(&keeper, renter));
        let answers = keeper.answers(line);
        if let Some(first) = answers.first() {
            *heard.entry(kind(first)).or_default() += 1;
        }
        for renter in 0..2 {
            let after = count(&keeper, renter as i32);
            filled[renter] += usize::from(before[renter] == 31 && after == 32);
            emptied[renter] += usize::from(before[renter] == 1 && after == 0);
        }
        if let Some(text) = &keeper.text {
            assert_eq!(read(text).as_ref(), Ok(&keeper.book));
        }
    }
    let ways: Vec<&str> = heard.keys().map(String::as_str).collect();
    assert_eq!(
        ways,
        ["10", "16", "17", "18", "19", "3", "?", "none", "strip"]
    );
    assert!(heard.values().all(|count| *count >= 10), "{heard:?}");
    assert!(filled.iter().chain(&emptied).all(|times| *times >= 3));
}

fn count(keeper: &Keeper, renter: i32) -> usize {
    listing(&keeper.book, renter, 160).unwrap().len() / 5
}

/// The number of a refusal, or how else a line was answered.
fn kind(answer: &str) -> String {
    let words = answer.split_once(':').map(|_| answer.split(' ').next());
    match (answer, words) {
        ("?" | "none", _) => answer.to_string(),
        (_, Some(number)) => number.unwrap_or_default().to_string(),
        _ => "strip".to_string(),
    }
}
