//! Holds answers to what is promised of neighbouring strips: every sentence is looked at on the answers themselves, and nothing
//! is answered anew.

pub mod kinds;
mod list;
pub mod sentences;
mod single;

use crate::cases::neighbours::{Asked, Group};
use crate::check::shown;
use crate::lines::lines;
use kinds::{Kind, Tally};
use sentences::NO_ANSWER;

/// What a lot has, if every sentence holds and no kind of case is missing; else what is wrong, in words.
pub fn held(input: &[u8], answers: &[u8]) -> Result<Tally, String> {
    let tally = tally(input, answers)?;
    let missing = tally.missing();
    if missing.is_empty() {
        Ok(tally)
    } else {
        Err(format!("the lot has no case of: {}", missing.join(", ")))
    }
}

/// The same with no eye to what is missing.
pub fn tally(input: &[u8], answers: &[u8]) -> Result<Tally, String> {
    let (input, answers) = (lines(input), lines(answers));
    let (count, answered) = (input.len(), answers.len());
    if count != answered {
        return Err(format!("{count} lines have {answered} answers"));
    }
    let mut tally = Tally::default();
    let mut at = 0;
    while at < count {
        let wrong = |(place, words): (usize, String)| format!("line {}: {words}", at + place + 1);
        let group = Group::first_of(&input[at..])
            .ok_or_else(|| wrong((0, "no group starts here".to_string())))?;
        let end = at + 3 * group.words().len();
        note(&mut tally, &group, &input[at..end], &answers[at..end]).map_err(wrong)?;
        at = end;
    }
    Ok(tally)
}

/// Where a sentence is broken: the place in the group of the first of its three lines, the sentence, and the three answers.
fn note(
    tally: &mut Tally,
    group: &Group,
    lines: &[&[u8]],
    answers: &[&[u8]],
) -> Result<(), (usize, String)> {
    for (k, word) in group.words().iter().enumerate() {
        let three = 3 * k..3 * k + 3;
        let answers = &answers[three.clone()];
        match kinds(group, word, answers) {
            Ok(kinds) => tally.note(word, &kinds),
            Err(broken) => {
                let shown = side_by_side(&lines[three], answers);
                return Err((3 * k, format!("this does not hold: {broken}\n{shown}")));
            }
        }
    }
    tally.groups += 1;
    Ok(())
}

/// The kinds of cases that three answers are of, or the sentence that they break.
fn kinds(group: &Group, word: &str, answers: &[&[u8]]) -> Result<Vec<Kind>, String> {
    match &group.asked {
        Asked::Stroke(stroke) => {
            let answers = three(answers, |numbers| single::read(word, numbers))?;
            let kind = single::kind(group.strips.border, *stroke, answers)?;
            Ok(vec![kind])
        }
        Asked::List(room, list) => {
            let strokes = list.len() / 4;
            let answers = three(answers, |numbers| list::read(*room, strokes, numbers))?;
            list::kinds(strokes, answers)
        }
    }
}

/// Of the left strip, the right one and the joined window.
fn three<T>(answers: &[&[u8]], read: impl Fn(&[i128]) -> Option<T>) -> Result<[T; 3], String> {
    let read = |answer: &&[u8]| numbers(answer).and_then(|numbers| read(&numbers));
    let answers: Option<Vec<T>> = answers.iter().map(read).collect();
    answers
        .and_then(|answers| answers.try_into().ok())
        .ok_or(NO_ANSWER.to_string())
}

/// Of 64 bits at most, so that fractions of them can be compared.
fn numbers(answer: &[u8]) -> Option<Vec<i128>> {
    let words = std::str::from_utf8(answer).ok()?.split(' ');
    let number = |word: &str| word.parse::<i64>().ok().map(i128::from);
    words.map(number).collect()
}

fn side_by_side(lines: &[&[u8]], answers: &[&[u8]]) -> String {
    let pairs = lines.iter().zip(answers);
    let pairs =
        pairs.map(|(line, answer)| format!("{}: {}", shown(Some(line)), shown(Some(answer))));
    pairs.collect::<Vec<_>>().join("\n")
}
