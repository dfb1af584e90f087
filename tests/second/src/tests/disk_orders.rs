//! The commands of the book on disk, by hand: words, spaces, comments and line ends.

use crate::disk::decimal::value;
use crate::disk::order::{read, Line, Order, LONGEST_LINE};
use Line::{Blank, NoCommand};

#[test]
fn commands() {
    let [zero, half, twenty] = ["0", "-0.5", "20"].map(|word| value(word.as_bytes()).unwrap());
    let book = Line::Order(Order::Book(1, [zero, half, twenty, twenty]));
    let release = Line::Order(Order::Release(0, 3));
    let strips = Line::Order(Order::Strips(-1));
    let show = Line::Order(Order::Show);
    for (line, expected) in [
        ("book 1 0 -0.5 20 20", book),
        ("  book  01   000 -0.50 20 20.0 # mine\r", book),
        ("book 1 0 -0.5 20 20#", book),
        ("release 0 3", release),
        ("release -0 003\r", release),
        ("strips -1", strips),
        ("strips 2147483647", Line::Order(Order::Strips(i32::MAX))),
        ("strips -02147483648", Line::Order(Order::Strips(i32::MIN))),
        ("show", show),
        ("show#", show),
        ("show \r", show),
        ("show # \t \r x", show),
    ] {
        assert_eq!(read(line.as_bytes()), expected, "{line:?}");
    }
}

#[test]
fn no_words() {
    for line in ["", " ", "\r", "   \r", "#", "  # show", "#show\r"] {
        assert_eq!(read(line.as_bytes()), Blank, "{line:?}");
    }
}

#[test]
fn no_commands() {
    for line in [
        "\t",
        "\r\r",
        "show\r\r",
        "show\r#",
        "show\t",
        "\tshow",
        "show\0",
        "Show",
        "shows",
        "show 0",
        "book",
        "book 0 0 0 20",
        "book 0 0 0 20 10 1",
        "book 0 0 0 20 10 mm",
        "book\t0 0 0 20 10",
        "book 0 0 0 20 1,5",
        "book 0 0 0 20 1e1",
        "book +0 0 0 20 10",
        "book 0.0 0 0 20 10",
        "book 0 0 0 20 1234567890",
        "release 0",
        "release 0 0 0",
        "release 0 1.0",
        "release 0 --1",
        "strips",
        "strips 0 1",
        "strips x",
        "strips 2147483648",
        "strips -2147483649",
        "release 4294967296 0",
        "release 0 18446744073709551616",
        "help",
        "\u{feff}show",
    ] {
        assert_eq!(read(line.as_bytes()), NoCommand, "{line:?}");
    }
}

#[test]
fn the_longest_line() {
    let padded = |length: usize| [b"show".to_vec(), vec![b' '; length - 4]].concat();
    assert_eq!(read(&padded(LONGEST_LINE)), Line::Order(Order::Show));
    assert_eq!(read(&padded(LONGEST_LINE + 1)), NoCommand);
    assert_eq!(LONGEST_LINE, 400_000);
}
