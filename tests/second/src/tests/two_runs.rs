//! What a renter can hear of the other: two runs from an empty book, with the same calls of one renter and different ones of
//! the other, in which the one got the same booking answers so far. The next call is judged.

use super::heard::{number, of_book, Heard};
use crate::cases::book_asked::{any_renter, Asked};
use crate::cases::books::Book;
use crate::cases::grounds::Ground;
use crate::random::Random;
use crate::refusal::Refusal;
use crate::strip_book::{listing, share_area, strips};

/// How a book answers, the right way or a wrong one.
type Rule = fn(&mut Vec<i32>, i32, Asked) -> Heard;

/// What the renter hears in the one run and in the other.
type Two = [Heard; 2];

/// A listing and a release are the same; 17 comes in both runs or in none; where neither booking is 16 they are the same.
fn as_claimed(asked: Asked, heard: &Two) -> bool {
    let gets = |wanted: u8| heard.each_ref().map(|one| number(one) == wanted);
    match asked {
        Asked::Enter(_) if gets(16) != [false; 2] => gets(17) == [false; 2],
        _ => heard[0] == heard[1],
    }
}

/// How many calls were judged, and of what kind.
#[derive(Debug, Default)]
struct Tally {
    calls: usize,
    /// The other's half was not the same in both runs.
    others_differ: usize,
    /// The own half was not, which must never be.
    own_differ: usize,
    listings: usize,
    listings_short: usize,
    releases: usize,
    releases_refused: usize,
    booked: usize,
    /// 17 in both, and how often the strip shared area with one of the book in one run only.
    full: usize,
    full_and_clash_in_one: usize,
    clash_in_both: usize,
    clash_in_one: usize,
}

impl Tally {
    fn note(&mut self, pair: &Pair, asked: Asked, heard: &Two) {
        self.calls += 1;
        self.others_differ += usize::from(pair.differs(1 - pair.renter));
        self.own_differ += usize::from(pair.differs(pair.renter));
        let numbers = heard.each_ref().map(number);
        let count = match (asked, numbers) {
            (Asked::Strips(_), [0, 0]) => &mut self.listings,
            (Asked::Strips(_), [8, 8]) => &mut self.listings_short,
            (Asked::Release(_), [0, 0]) => &mut self.releases,
            (Asked::Release(_), [18, 18]) => &mut self.releases_refused,
            (Asked::Enter(_), [0, 0]) => &mut self.booked,
            (Asked::Enter(strip), [17, 17]) => {
                let clash = pair.books.each_ref().map(|book| clashes(book, strip));
                self.full_and_clash_in_one += usize::from(clash[0] != clash[1]);
                &mut self.full
            }
            (Asked::Enter(_), [16, 16]) => &mut self.clash_in_both,
            (Asked::Enter(_), [16, _] | [_, 16]) => &mut self.clash_in_one,
            // A window that is none.
            _ => return,
        };
        *count += 1;
    }
}

/// Two runs of which the renter heard the same.
struct Pair {
    rule: Rule,
    renter: i32,
    books: [Vec<i32>; 2],
}

/// More places than both renters have slots, also where they book in two runs.
const GROUND: Ground = Ground::Board {
    squares: 12,
    size: 1,
    most: 1,
};

impl Pair {
    /// Some calls of the other in each run, then one of the renter in both; it is what breaks the claim, if it does.
    /// A booking that was not answered alike is judged like every other, and then left out of the two runs.
    fn go_on(&mut self, random: &mut Random, tally: &mut Tally) -> Result<(), (Asked, Two)> {
        for run in [0, 1] {
            for _ in 0..random.below(3) {
                self.call_of_other(random, run);
            }
        }
        let like = random.below(2);
        let asked = any_call(random, &self.books[like], self.renter, 12);
        let mut after = self.books.clone();
        let heard = after
            .each_mut()
            .map(|book| (self.rule)(book, self.renter, asked));
        if !as_claimed(asked, &heard) {
            return Err((asked, heard));
        }
        tally.note(self, asked, &heard);
        if heard[0] == heard[1] {
            self.books = after;
        }
        Ok(())
    }

    /// Now and then under the name of no renter, which changes nothing.
    fn call_of_other(&mut self, random: &mut Random, run: usize) {
        let book = &mut self.books[run];
        let caller = any_renter(random, &[1 - self.renter]);
        let asked = any_call(random, book, caller, 6);
        let before = book.clone();
        let heard = (self.rule)(book, caller, asked);
        if caller != 1 - self.renter {
            assert_eq!((number(&heard), &*book), (19, &before));
        }
    }

    /// Whether a renter's half is not the same in both runs.
    fn differs(&self, renter: i32) -> bool {
        let start = 160 * renter as usize;
        let [one, other] = self.books.each_ref().map(|book| &book[start..start + 160]);
        one != other
    }
}

fn any_call(random: &mut Random, book: &[i32], renter: i32, releases: usize) -> Asked {
    Asked::any(random, &Book(book.to_vec()), renter, GROUND, releases)
}

fn clashes(book: &[i32], strip: [i32; 4]) -> bool {
    strips(book).any(|other| share_area(strip, other))
}

/// Many pairs of runs, up to the first call that breaks the claim.
fn tried(rule: Rule) -> Result<Tally, (Asked, Two)> {
    let mut random = Random::new(8);
    let mut tally = Tally::default();
    for k in 0..100 {
        let books = [vec![0; 320], vec![0; 320]];
        let renter = k % 2;
        let mut pair = Pair {
            rule,
            renter,
            books,
        };
        for _ in 0..160 {
            pair.go_on(&mut random, &mut tally)?;
        }
    }
    Ok(tally)
}

#[test]
fn a_renter_hears_of_the_other_only_by_16() {
    let tally = tried(of_book).expect("the claim holds");
    let seen = format!("{tally:?}");
    assert_eq!(tally.own_differ, 0, "{seen}");
    assert!(
        tally.calls > 15_000 && tally.others_differ > 15_000,
        "{seen}"
    );
    assert!(tally.listings > 500 && tally.listings_short > 500, "{seen}");
    assert!(
        tally.releases > 500 && tally.releases_refused > 500,
        "{seen}"
    );
    assert!(tally.booked > 2_000 && tally.clash_in_both > 200, "{seen}");
    assert!(tally.clash_in_one > 1_000, "{seen}");
    assert!(
        tally.full > 2_000 && tally.full_and_clash_in_one > 500,
        "{seen}"
    );
}

/// With 16 before 17, a renter whose half is full hears where the other's strips are.
#[test]
fn clash_before_full_breaks_the_claim() {
    let (asked, heard) = tried(clash_first).expect_err("the claim is broken");
    assert!(matches!(asked, Asked::Enter(_)), "{asked:?}");
    let mut numbers = heard.each_ref().map(number);
    numbers.sort();
    assert_eq!(numbers, [16, 17]);
}

fn clash_first(book: &mut Vec<i32>, renter: i32, asked: Asked) -> Heard {
    let heard = of_book(book, renter, asked);
    match asked {
        Asked::Enter(strip) if number(&heard) == 17 && clashes(book, strip) => Err(Refusal {
            number: 16,
            place: 0,
        }),
        _ => heard,
    }
}

/// Other rules that tell a renter of the other are found out too.
#[test]
fn what_else_breaks_the_claim() {
    let (asked, _) = tried(both_listed).expect_err("the claim is broken");
    assert!(matches!(asked, Asked::Strips(_)), "{asked:?}");
    // By the own release, or by the other's, which strikes out what the renter then lists.
    let (asked, _) = tried(either_released).expect_err("the claim is broken");
    assert!(!matches!(asked, Asked::Enter(_)), "{asked:?}");
    let (asked, heard) = tried(numbered_together).expect_err("the claim is broken");
    assert!(matches!(asked, Asked::Enter(_)), "{asked:?}");
    assert_eq!(heard.each_ref().map(number), [0, 0]);
}

/// A listing of both renters' strips, the own ones first.
fn both_listed(book: &mut Vec<i32>, renter: i32, asked: Asked) -> Heard {
    let own = of_book(book, renter, asked)?;
    match asked {
        Asked::Strips(room) => listing(book, 1 - renter, room).map(|others| [own, others].concat()),
        _ => Ok(own),
    }
}

/// A slot that is free in the own half is released in the other's.
fn either_released(book: &mut Vec<i32>, renter: i32, asked: Asked) -> Heard {
    let heard = of_book(book, renter, asked);
    match number(&heard) {
        18 => of_book(book, 1 - renter, asked),
        _ => heard,
    }
}

/// A booking answers how many strips there were before, of both renters.
fn numbered_together(book: &mut Vec<i32>, renter: i32, asked: Asked) -> Heard {
    let before = strips(book).count() as i32;
    let heard = of_book(book, renter, asked)?;
    match asked {
        Asked::Enter(_) => Ok(vec![before]),
        _ => Ok(heard),
    }
}
