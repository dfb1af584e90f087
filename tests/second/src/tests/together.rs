//! Answers that break what is promised of neighbouring strips are told, with the sentence, and so is a lot without a kind of case.

use crate::answer::answer;
use crate::call::{read, Call};
use crate::cases::joined;
use crate::cases::neighbours::{Asked, Group, Neighbours};
use crate::cases::stroke_kinds::Stroke;
use crate::together::sentences::{
    ALIKE, ALONG, KEPT, NO_ANSWER, ONE_FRACTION, ROWS, SAME_POINT, TOGETHER,
};
use crate::together::{held, tally};

const MISSED: &str = "0 0 0 0 1 0 1 0 0 0 0 255 255";

/// The square, parted at x = 5.
fn square(asked: Asked) -> Group {
    let joined = [0, 0, 10, 10];
    let strips = Neighbours { joined, border: 5 };
    Group { strips, asked }
}

/// The true answers to a group, but for those given by their places.
fn spoiled(group: &Group, places: &[(usize, &str)]) -> Vec<String> {
    let mut answers: Vec<String> = group.lines().iter().map(|line| answer(line)).collect();
    for (place, other) in places {
        assert_ne!(answers[*place], *other, "nothing is spoiled");
        answers[*place] = other.to_string();
    }
    answers
}

/// How many groups hold, or what is said against them.
fn said(lines: &[Vec<u8>], answers: &[String]) -> Result<usize, String> {
    let told = tally(&lines.join(&b'\n'), answers.join("\n").as_bytes());
    told.map(|tally| tally.groups)
}

/// The sentence is told with the number of the first of its three lines, and with the three answers.
fn broken(asked: Asked, places: &[(usize, &str)], sentence: &str) {
    let group = square(asked);
    let (lines, answers) = (group.lines(), spoiled(&group, places));
    assert_eq!(said(&lines, &spoiled(&group, &[])), Ok(1));
    let told = said(&lines, &answers).expect_err(sentence);
    let first = places[0].0 / 3 * 3;
    let head = format!("line {}: this does not hold: {sentence}\n", first + 1);
    assert!(told.starts_with(&head), "{told}");
    let three = &answers[first..first + 3];
    assert!(three.iter().all(|answer| told.contains(answer)), "{told}");
}

/// One answer of a stroke, by either rule.
fn broken_stroke(stroke: Stroke, place: usize, other: &str, sentence: &str) {
    broken(Asked::Stroke(stroke), &[(place, other)], sentence);
    let (common, sides) = other.split_at(other.rmatch_indices(' ').nth(1).expect("two sides").0);
    let counted = format!("{common} 1{sides}");
    broken(Asked::Stroke(stroke), &[(3 + place, &counted)], sentence);
}

const RIGHTWARD: Stroke = [-5, 5, 15, 5];
const LEFTWARD: Stroke = [15, 5, -5, 5];

#[test]
fn kept_exactly_when_one_of_the_two_keeps_it() {
    broken_stroke(RIGHTWARD, 2, MISSED, KEPT);
    broken_stroke([2, 2, 2, 2], 2, MISSED, KEPT);
    broken_stroke([2, 2, 2, 2], 0, MISSED, KEPT);
    broken_stroke([5, 2, 5, 8], 2, MISSED, KEPT);
    broken_stroke([-5, 4, 4, -5], 2, "0 0 1 1 2 1 2 0 0 0 0 0 2", KEPT);
    broken_stroke([-5, 4, 4, -5], 0, "0 0 1 1 2 1 2 0 0 0 0 0 2", KEPT);
}

#[test]
fn the_parts_together() {
    // The left part ends before the border, or the right one starts behind it: a gap.
    broken_stroke(RIGHTWARD, 0, "0 0 1 1 4 2 5 0 5 3 5 0 1", TOGETHER);
    broken_stroke(RIGHTWARD, 1, "0 0 1 3 5 3 4 7 5 10 5 0 1", TOGETHER);
    broken_stroke(LEFTWARD, 0, "0 0 1 3 5 3 4 3 5 0 5 1 0", TOGETHER);
    // The joined part ends too early, starts too late, goes too far.
    broken_stroke(RIGHTWARD, 2, "0 0 1 1 4 1 2 0 5 5 5 0 1", TOGETHER);
    broken_stroke(RIGHTWARD, 2, "0 0 1 1 2 3 4 5 5 10 5 0 1", TOGETHER);
    broken_stroke(RIGHTWARD, 2, "0 0 1 1 4 1 1 0 5 15 5 0 255", TOGETHER);
    broken_stroke([2, 3, 4, 9], 2, "0 0 1 0 1 1 2 2 3 3 6 255 3", TOGETHER);
    // One of the two misses more than the point at the border.
    broken_stroke(LEFTWARD, 1, MISSED, TOGETHER);
}

#[test]
fn exactly_one_shared_fraction() {
    // From 2/5 and up to 3/5 of the way.
    broken_stroke(RIGHTWARD, 1, "0 0 1 2 5 3 4 3 5 10 5 0 1", ONE_FRACTION);
    broken_stroke(RIGHTWARD, 0, "0 0 1 1 4 3 5 0 5 7 5 0 1", ONE_FRACTION);
    broken_stroke(LEFTWARD, 0, "0 0 1 2 5 3 4 7 5 0 5 1 0", ONE_FRACTION);
    // All of the joined part.
    broken_stroke(LEFTWARD, 1, "0 0 1 1 4 3 4 10 5 0 5 1 0", ONE_FRACTION);
    // The right strip's part before the left one's.
    let exchanged = [
        (0, "0 0 1 1 2 3 4 5 5 10 5 0 1"),
        (1, "0 0 1 1 4 1 2 0 5 5 5 0 1"),
    ];
    broken(Asked::Stroke(RIGHTWARD), &exchanged, ONE_FRACTION);
}

#[test]
fn the_rounded_point_at_the_border() {
    // Half to the even number by the one and to the odd one by the other.
    broken_stroke([4, 0, 6, 1], 1, "0 0 1 1 2 1 1 5 1 6 1 0 255", SAME_POINT);
    broken_stroke([4, 0, 6, 1], 0, "0 0 1 0 1 1 2 4 0 5 1 255 1", SAME_POINT);
    broken_stroke([6, 2, 4, 1], 0, "0 0 1 1 2 1 1 5 1 4 1 1 255", SAME_POINT);
    broken_stroke([6, 2, 4, 1], 1, "0 0 1 0 1 1 2 6 2 5 1 255 0", SAME_POINT);
    // Another x; either point of a touch.
    broken_stroke(RIGHTWARD, 1, "0 0 1 1 2 3 4 6 5 10 5 0 1", SAME_POINT);
    broken_stroke([3, -2, 8, 3], 0, "0 0 1 2 5 2 5 4 0 5 0 2 1", SAME_POINT);
    broken_stroke([3, -2, 8, 3], 0, "0 0 1 2 5 2 5 5 0 5 1 2 1", SAME_POINT);
}

#[test]
fn along_the_border() {
    let over = [5, -5, 5, 15];
    broken_stroke(over, 0, MISSED, ALONG);
    broken_stroke(over, 1, MISSED, ALONG);
    broken_stroke(over, 1, "0 0 1 1 2 3 4 5 5 5 10 2 3", ALONG);
    broken_stroke([5, 15, 5, 10], 1, MISSED, ALONG);
    broken_stroke([5, 5, 5, 5], 0, MISSED, ALONG);
}

#[test]
fn refusals() {
    let refused = |number: u8, place: u8| format!("{number} {place} 0 0 1 0 1 0 0 0 0 255 255");
    broken_stroke(RIGHTWARD, 2, &refused(3, 0), ALIKE);
    broken_stroke(RIGHTWARD, 2, &refused(2, 2), ALIKE);
    broken_stroke(RIGHTWARD, 0, &refused(3, 0), ALIKE);
    broken_stroke([-5, 4, 4, -5], 2, &refused(6, 0), ALIKE);
    // Of a stroke off the table: taken, or refused at another place.
    broken_stroke([5, 5, 5, 16_384], 2, MISSED, ALIKE);
    broken_stroke([5, 5, 5, 16_384], 1, &refused(6, 2), ALIKE);
}

/// Crossing, only in the left strip, missed.
fn three_strokes() -> Asked {
    Asked::List(10, vec![-5, 5, 15, 5, 2, 2, 2, 2, -5, 4, 4, -5])
}

#[test]
fn rows_of_a_list() {
    let cases = [
        // A row is missing in the joined batch: of both, of one.
        (
            2,
            "0 0 5 1 2 2 2 2 7000005 7000006 7000007 7000008 7000009",
            0,
        ),
        (
            2,
            "0 0 5 0 0 5 10 5 7000005 7000006 7000007 7000008 7000009",
            1,
        ),
        // A row that neither has; one that the joined batch has not.
        (2, "0 0 10 0 0 5 10 5 2 0 0 0 0", 1),
        (1, "0 0 10 0 5 5 10 5 2 5 0 5 0", 2),
        (
            0,
            "0 0 5 0 0 5 5 5 7000005 7000006 7000007 7000008 7000009",
            1,
        ),
    ];
    for (place, other, stroke) in cases {
        let sentence = format!("{ROWS} (stroke {stroke})");
        broken(three_strokes(), &[(place, other)], &sentence);
    }
    let rest = "7000000 7000001 7000002 7000003 7000004 7000005 7000006 7000007 7000008 7000009";
    broken(three_strokes(), &[(2, &format!("8 15 0 {rest}"))], ALIKE);
    broken(three_strokes(), &[(1, &format!("3 0 0 {rest}"))], ALIKE);
}

#[test]
fn no_answers() {
    for other in [
        "?",
        "",
        "0 0 1 1 4 1 2 0 5 5 5 0",
        "0 0 1 1 4 1 2 0 5 5 5 2 0 1",
        "0 0 2 1 4 1 2 0 5 5 5 0 1",
        "0 0 1 1 0 1 2 0 5 5 5 0 1",
        "0 0 1 1 -4 1 2 0 5 5 5 0 1",
        // From 1/2 to 1/4.
        "0 0 1 1 2 1 4 5 5 0 5 0 1",
        "0 0 1 1 4 1 2 0 5 5 5 0 left",
    ] {
        broken(Asked::Stroke(RIGHTWARD), &[(0, other)], NO_ANSWER);
    }
    for other in [
        "?",
        "0 0 5 0 0 5 5 5",
        "0 0 11 0 0 5 5 5 1 2 2 2 2",
        "0 0 6 0 0 5 5 5 1 2 2 2 2",
        "0 0 10 0 0 5 5 5 3 2 2 2 2",
        "0 0 -5 0 0 5 5 5 1 2 2 2 2",
    ] {
        broken(three_strokes(), &[(0, other)], NO_ANSWER);
    }
}

/// Lines that are not of neighbouring strips are told, and a lot with too few answers.
#[test]
fn no_groups() {
    let group = square(Asked::Stroke(RIGHTWARD));
    let (lines, answers) = (group.lines(), spoiled(&group, &[]));
    assert_eq!(said(&lines, &answers), Ok(1));
    assert_eq!(
        said(&lines, &answers[..5]),
        Err("6 lines have 5 answers".to_string())
    );
    let nothing = |line: usize| Err(format!("line {line}: no group starts here"));
    assert_eq!(said(&lines[..5], &answers[..5]), nothing(1));
    assert_eq!(said(&lines[1..], &answers[1..]), nothing(1));
    let twice = [&lines[..], &lines[..3]].concat();
    let answers_twice = [&answers[..], &answers[..3]].concat();
    assert_eq!(said(&twice, &answers_twice), nothing(7));
    // A strip that does not start or end at the border, another stroke, another top.
    for (place, other) in [
        (1, "lb 6 0 10 10 -5 5 15 5"),
        (0, "lb 0 0 6 10 -5 5 15 5"),
        (1, "lb 5 0 10 10 -5 5 15 6"),
        (2, "lb 0 0 10 11 -5 5 15 5"),
    ] {
        let mut lines = lines.clone();
        lines[place] = other.as_bytes().to_vec();
        assert_eq!(said(&lines, &answers), nothing(1), "{other}");
    }
    // Strips without area and off the table, of which nothing is promised.
    for (joined, border) in [
        ([0, 0, 10, 10], 0),
        ([0, 0, 10, 10], 12),
        ([0, 10, 10, 10], 5),
        ([0, 0, 16_384, 10], 5),
    ] {
        let strips = Neighbours { joined, border };
        let asked = Asked::Stroke(RIGHTWARD);
        let lines = Group { strips, asked }.lines();
        assert_eq!(said(&lines, &answers), nothing(1), "{strips:?}");
    }
}

/// An answer that misses everything and is refused nothing.
fn missing_all(line: &[u8]) -> String {
    match read(line) {
        Some(Call::LiangBarsky(..)) => MISSED.to_string(),
        Some(Call::CohenSutherland(..)) => format!("{MISSED} 255"),
        Some(Call::Batch(_, room, ..)) => format!("0 0 0{}", " 7".repeat(room)),
        _ => "?".to_string(),
    }
}

/// Such answers break no sentence, but then the lot has no case of most kinds; an empty lot has of none.
#[test]
fn missing_kinds() {
    let of_a_stroke = |word: &str| {
        let kinds = [
            "crossing rightward",
            "crossing leftward",
            "touching one at the border",
            "touching both at the border",
            "along the border and kept",
            "kept by one",
            "refused",
        ];
        kinds.map(|kind| format!("{word} {kind}")).join(", ")
    };
    let of_a_list = |word: &str| {
        let kinds = ["kept by both", "kept by one", "refused"];
        kinds.map(|kind| format!("{word} {kind}")).join(", ")
    };
    let missing = [
        of_a_stroke("lb"),
        of_a_stroke("cs"),
        of_a_list("touches"),
        of_a_list("batch"),
    ]
    .join(", ");
    let lines = joined::fixed();
    let answers: Vec<String> = lines.iter().map(|line| missing_all(line)).collect();
    assert!(said(&lines, &answers).is_ok());
    let told = held(&lines.join(&b'\n'), answers.join("\n").as_bytes()).map(|_| ());
    assert_eq!(told, Err(format!("the lot has no case of: {missing}")));
    let told = held(b"", b"").map(|_| ()).expect_err("nothing is there");
    assert_eq!(told.split(", ").count(), 26, "{told}");
}
