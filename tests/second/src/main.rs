//! The second program: it answers the desk's lines by the meaning of the rules, with exact fractions,
//! and makes the lines on which the two are compared.
//!
//! second cases SEED COUNT     lines for the desk, the worked examples first
//! second answers < INPUT      one answer a line
//! second floats STEP          mm2 lines over all f32 patterns, STEP apart
//! second grid                 every grid number to millimetres, and those millimetres back
//! second books SEED COUNT     runs of a strip book, and the longest book
//! second joined SEED COUNT    groups of lines on neighbouring strips and the window that they make together
//! second check A B [INPUT]    the first line in which two files of answers differ
//! second together INPUT ANSWERS
//!                             how many groups there are of the lines that `joined` made, and of what kinds, if their answers are
//!                             as is promised of neighbouring strips; else, and with status 1, the first that are not
//!
//! Of the program `book`, which keeps a strip book in a file:
//!
//! second commands             lines for it, the same each time: two reasons to refuse at once, odd words in each place
//! second commands SEED COUNT  lines for it, in runs that fill a renter's slots and empty them
//! second keep FILE < INPUT    its answers, and the book kept in FILE as it keeps it; a line that is no command has `?` alone.
//!                             The status is 1 where a line is refused or no command. Of a FILE that is no book's the
//!                             first line from which on it is none is said on standard error, and the status is 3
//! second damaged SEED COUNT FOLDER
//!                             files 1 to COUNT there, and of each: its number, that line (0 for a book's), what befell it

mod answer;
mod batch;
mod call;
mod cases;
mod check;
mod cohen_sutherland;
mod convex;
mod cross_product;
mod cyrus_beck;
mod disk;
mod drawing;
mod engines;
mod fraction;
mod hull;
mod kept;
mod liang_barsky;
mod lines;
mod millimetres;
mod outline;
mod point;
mod printed;
mod random;
mod rectangle;
mod refusal;
mod rounding;
mod strip_book;
mod stroke;
mod sweeps;
mod table;
#[cfg(test)]
mod tests;
mod together;

use std::fmt::Display;
use std::io::{self, BufWriter, Read, Write};
use std::process::ExitCode;

fn main() -> ExitCode {
    let words: Vec<String> = std::env::args().skip(1).collect();
    let words: Vec<&str> = words.iter().map(String::as_str).collect();
    match command(&words) {
        Ok(done) => done,
        Err(fault) => {
            eprintln!("second: {fault}");
            ExitCode::from(2)
        }
    }
}

fn command(words: &[&str]) -> Result<ExitCode, String> {
    match words {
        ["cases", seed, count] => cases(seed, count),
        ["answers"] => answers(),
        ["printed"] => print(lines::lines(&input()?).into_iter().map(printed::answer)),
        ["floats", step] => match number(step)? {
            0 => Err("a step of 0".to_string()),
            step => print(sweeps::floats(step)),
        },
        ["grid"] => print(sweeps::grid()),
        ["books", seed, count] => print(sweeps::books(number(seed)?, number(count)?)),
        ["joined", seed, count] => {
            print(cases::joined::lines(number(seed)?, number(count)?).iter())
        }
        ["check", a, b] => check(a, b, None),
        ["check", a, b, input] => check(a, b, Some(input)),
        ["together", input, answers] => told(together::held(&read(input)?, &read(answers)?)),
        ["commands"] => print(cases::command_forms::lines().iter()),
        ["commands", seed, count] => {
            let list = cases::commands::list(number(seed)?, number(count)?);
            done(io::stdout().write_all(&list))
        }
        ["keep", file] => keep(file),
        ["damaged", seed, count, folder] => damaged(number(seed)?, number(count)?, folder),
        _ => Err(
            "cases SEED COUNT, answers, floats STEP, grid, books SEED COUNT, joined SEED COUNT, \
             check A B [INPUT], together INPUT ANSWERS, commands [SEED COUNT], keep FILE, \
             damaged SEED COUNT FOLDER"
                .to_string(),
        ),
    }
}

fn number<T: std::str::FromStr>(word: &str) -> Result<T, String> {
    word.parse().map_err(|_| format!("not a number: {word}"))
}

/// The last line goes without its newline, as the desk allows.
fn cases(seed: &str, count: &str) -> Result<ExitCode, String> {
    let lot = cases::lot(number(seed)?, number(count)?);
    engines::agree(&lot)?;
    done(io::stdout().write_all(&lot.join(&b'\n')))
}

fn answers() -> Result<ExitCode, String> {
    print(lines::lines(&input()?).into_iter().map(answer::answer))
}

fn input() -> Result<Vec<u8>, String> {
    let mut input = Vec::new();
    let read = io::stdin().read_to_end(&mut input);
    read.map_err(|fault| fault.to_string())?;
    Ok(input)
}

fn keep(file: &str) -> Result<ExitCode, String> {
    let before = match std::fs::read(file) {
        Err(fault) if fault.kind() == io::ErrorKind::NotFound => None,
        read => Some(read.map_err(|fault| format!("{file}: {fault}"))?),
    };
    let sitting = match disk::keeping::sitting(before.as_deref(), &input()?) {
        Ok(sitting) => sitting,
        Err(line) => {
            eprintln!("{line}");
            return Ok(ExitCode::from(3));
        }
    };
    if let Some(after) = sitting.text.filter(|after| Some(after) != before.as_ref()) {
        std::fs::write(file, after).map_err(|fault| format!("{file}: {fault}"))?;
    }
    print(sitting.answers.iter())?;
    Ok(ExitCode::from(u8::from(sitting.complained)))
}

fn damaged(seed: u64, count: usize, folder: &str) -> Result<ExitCode, String> {
    let mut list = Vec::new();
    for (k, (what, text)) in (1..).zip(cases::damage::texts(seed, count)) {
        let file = format!("{folder}/{k}");
        std::fs::write(&file, &text).map_err(|fault| format!("{file}: {fault}"))?;
        let line = disk::text::read(&text).map_or_else(|line| line, |_| 0);
        list.push(format!("{k} {line} {what}"));
    }
    print(list.iter())
}

fn print(lines: impl Iterator<Item = impl AsRef<[u8]>>) -> Result<ExitCode, String> {
    let mut out = BufWriter::new(io::stdout().lock());
    for line in lines {
        let written = out
            .write_all(line.as_ref())
            .and_then(|_| out.write_all(b"\n"));
        written.map_err(|fault| fault.to_string())?;
    }
    done(out.flush())
}

fn done(written: io::Result<()>) -> Result<ExitCode, String> {
    written
        .map(|_| ExitCode::SUCCESS)
        .map_err(|fault| fault.to_string())
}

fn check(a: &str, b: &str, input: Option<&str>) -> Result<ExitCode, String> {
    let names: Vec<&str> = [a, b].into_iter().chain(input).collect();
    let mut files = Vec::new();
    for name in &names {
        files.push(read(name)?);
    }
    let named: Vec<check::Named> = names
        .iter()
        .zip(&files)
        .map(|(name, bytes)| check::Named { name, bytes })
        .collect();
    told(check::compare(&named[0], &named[1], named.get(2)))
}

fn read(name: &str) -> Result<Vec<u8>, String> {
    std::fs::read(name).map_err(|fault| format!("{name}: {fault}"))
}

/// What was found, or what is wrong and status 1.
fn told(found: Result<impl Display, String>) -> Result<ExitCode, String> {
    let (code, word) = match found {
        Ok(found) => (ExitCode::SUCCESS, found.to_string()),
        Err(wrong) => (ExitCode::FAILURE, wrong),
    };
    println!("{word}");
    Ok(code)
}
