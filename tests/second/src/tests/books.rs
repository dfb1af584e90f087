//! The strip book against answers worked out by hand, against a plain list of strips, and against the squares of the grid.

use super::expect;
use super::heard::{asked, number, of_book};
use super::plain_list::{apart, of_list, PlainList};
use crate::answer::answer;
use crate::call::read;
use crate::cases::book_asked::Asked;
use crate::cases::books::Book;
use crate::cases::{book_by_hand, book_runs, by_hand, lot};
use crate::random::Random;
use crate::strip_book::{share_area, Strip};
use std::collections::{BTreeMap, BTreeSet};

#[test]
fn as_worked_out_by_hand() {
    for (line, expected) in book_by_hand::answered() {
        assert_eq!(answer(&line), expected, "{}", line.escape_ascii());
    }
    expect(&by_hand::BOOKS);
}

#[test]
fn the_longest_book() {
    let zeros = |count: usize| Book::empty().cut_to(count);
    for (line, head) in [
        (zeros(20_000).enter(0, [0, 0, 10, 10]), "23 0 0"),
        (zeros(20_000).enter(2, [0, 0, 10, 10]), "19 0 0"),
        (zeros(20_000).release(1, 0), "23 0"),
        (zeros(20_000).release(-1, 0), "19 0"),
    ] {
        assert_eq!(answer(&line), format!("{head}{}", " 0".repeat(20_000)));
    }
    assert_eq!(answer(&zeros(20_000).strips(0, 1)), "23 0 0");
    assert_eq!(answer(&zeros(20_000).strips(0, 2)), "19 0 0");
    assert_eq!(answer(&zeros(20_001).enter(0, [0, 0, 10, 10])), "?");
    assert_eq!(answer(&zeros(20_001).release(0, 0)), "?");
    assert_eq!(answer(&zeros(20_001).strips(0, 0)), "?");
    let room = answer(&Book::empty().strips(40_960, 0));
    assert_eq!(room.split(' ').count(), 3 + 40_960);
    assert!(room.starts_with("0 0 0 7000000 ") && room.ends_with(" 7040959"));
    assert_eq!(answer(&Book::empty().strips(40_961, 0)), "?");
}

/// What is asked for in a workshop, of the book that goes on by itself and of the list.
#[test]
fn a_run_answers_as_a_plain_list_does() {
    let mut seen = Seen::default();
    let mut random = Random::new(11);
    for _ in 0..60 {
        let (mut book, mut list) = (vec![0; 320], PlainList::default());
        for line in book_runs::workshop(&mut random) {
            let (lent, renter, asked) = read(&line).and_then(asked).expect("a call on a book");
            if lent == [0; 320] {
                (book, list) = (vec![0; 320], PlainList::default());
            }
            assert_eq!(lent, book, "each line lends the book as it is");
            let heard = of_book(&mut book, renter, asked);
            assert_eq!(heard, of_list(Some(&mut list), renter, asked), "{asked:?}");
            assert_eq!(book, list.numbers(), "{renter} {asked:?}");
            assert!(PlainList::of(&book).is_some(), "no two share area");
            seen.note(renter, asked, number(&heard));
        }
    }
    seen.holds("enter", &[0, 2, 3, 16, 17], 100);
    seen.holds("release", &[0, 18], 40);
    seen.holds("strips", &[0, 8], 80);
}

/// Each line's book is the one that stands in the answer before it; a listing's answer has none, and changes none.
#[test]
fn a_workshop_sends_what_it_was_answered() {
    let mut before = None;
    for line in book_runs::workshop(&mut Random::new(5)) {
        let (lent, _, asked) = read(&line).and_then(asked).expect("a call on a book");
        let lent = lent.iter().map(i32::to_string).collect::<Vec<_>>();
        // A new run begins with an empty book.
        let empty = lent.iter().all(|word| word == "0");
        assert!(empty || Some(&lent) == before.as_ref(), "{asked:?}");
        let answer = answer(&line);
        let words: Vec<String> = answer.split(' ').map(str::to_string).collect();
        before = match asked {
            Asked::Enter(_) => Some(words[3..].to_vec()),
            Asked::Release(_) => Some(words[2..].to_vec()),
            Asked::Strips(_) => Some(lent),
        };
    }
}

/// Whatever is lent: the list is made of it anew for each call, and only the slot that the call names changes.
#[test]
fn every_lent_book_answers_as_its_plain_list_does() {
    let mut seen = Seen::default();
    let mut random = Random::new(7);
    let more = (0..6_000).map(|_| book_runs::line(&mut random));
    for line in lot(7, 5_000).into_iter().chain(more) {
        let Some((lent, renter, asked)) = read(&line).and_then(asked) else {
            continue;
        };
        let mut after = lent.clone();
        let heard = of_book(&mut after, renter, asked);
        let mut list = PlainList::of(&lent);
        assert_eq!(heard, of_list(list.as_mut(), renter, asked), "{asked:?}");
        let mut expected = lent.clone();
        let change = match (asked, &heard) {
            (Asked::Enter([l, b, r, t]), Ok(slot)) => Some((slot[0], [1, l, b, r, t])),
            (Asked::Release(slot), Ok(_)) => Some((slot, [0; 5])),
            _ => None,
        };
        if let Some((slot, five)) = change {
            let start = 5 * (32 * renter + slot) as usize;
            expected[start..start + 5].copy_from_slice(&five);
        }
        assert_eq!(after, expected, "{renter} {asked:?}");
        seen.note(renter, asked, number(&heard));
    }
    seen.holds("enter", &[0, 2, 3, 16, 17, 23], 40);
    seen.holds("release", &[0, 18, 23], 80);
    seen.holds("strips", &[0, 8, 23], 40);
}

/// How often each call ended in each way, for each renter.
#[derive(Default)]
struct Seen(BTreeMap<(&'static str, i32, u8), usize>);

impl Seen {
    fn note(&mut self, renter: i32, asked: Asked, number: u8) {
        let command = match asked {
            Asked::Enter(_) => "enter",
            Asked::Release(_) => "release",
            Asked::Strips(_) => "strips",
        };
        // All that there are not count as one.
        let renter = if renter == 0 || renter == 1 {
            renter
        } else {
            -1
        };
        *self.0.entry((command, renter, number)).or_default() += 1;
    }

    /// The call ended in exactly these ways for either renter, by 19 for any other, and in each of them so often.
    fn holds(&self, command: &str, numbers: &[u8], least: usize) {
        let known = numbers
            .iter()
            .flat_map(|number| [(0, *number), (1, *number)]);
        let expected: BTreeSet<(i32, u8)> = known.chain([(-1, 19)]).collect();
        let of_command = self.0.iter().filter(|(end, _)| end.0 == command);
        let ends: BTreeSet<(i32, u8)> = of_command.clone().map(|(end, _)| (end.1, end.2)).collect();
        assert_eq!(ends, expected, "{command}");
        for (end, count) in of_command {
            assert!(*count >= least, "{count} times {end:?}");
        }
    }
}

/// All strips on a board of four by four: two share area exactly when a square lies in both.
#[test]
fn strips_share_area_where_they_share_a_square() {
    let sides: Vec<[i32; 2]> = (0..4)
        .flat_map(|low| (low + 1..=4).map(move |high| [low, high]))
        .collect();
    let strips: Vec<Strip> = sides
        .iter()
        .flat_map(|[l, r]| sides.iter().map(move |[b, t]| [*l, *b, *r, *t]))
        .collect();
    assert_eq!(strips.len(), 100);
    for one in &strips {
        for other in &strips {
            let square = squares(*one).any(|square| squares(*other).any(|also| also == square));
            assert_eq!(share_area(*one, *other), square, "{one:?} {other:?}");
            assert_eq!(apart(*one, *other), !square, "{one:?} {other:?}");
        }
    }
}

/// The lower left corners of the squares that a strip is made of.
fn squares(strip: Strip) -> impl Iterator<Item = [i32; 2]> {
    let [left, bottom, right, top] = strip;
    (left..right).flat_map(move |x| (bottom..top).map(move |y| [x, y]))
}
