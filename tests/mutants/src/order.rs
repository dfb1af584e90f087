//! Edits of the order: operands, statements and guards that are exchanged, and guards that are left out.

use crate::site::{Edit, Site};
use crate::source::{closing, Kind};

/// Two neighbours exchanged: operands of a call, or values of a struct's fields.
pub fn operands(site: &Site) -> Vec<Edit> {
    let mut edits = Vec::new();
    for open in site.places() {
        let before = &site.tokens[open - 1];
        let call =
            site.text(open) == "(" && before.kind == Kind::Word && site.ends_operand(open - 1);
        let record = site.text(open) == "{"
            && before.kind == Kind::Word
            && before.text.starts_with(char::is_uppercase);
        if !call && !record {
            continue;
        }
        let list = elements(site, open, record);
        let like = list
            .windows(2)
            .filter(|pair| !unlike(site, pair[0], pair[1]));
        edits.extend(like.filter_map(|pair| site.exchange(pair[0], pair[1])));
    }
    edits
}

/// The elements between brackets, each as its place in the file; of a struct the values that stand after a name.
fn elements(site: &Site, open: usize, record: bool) -> Vec<(usize, usize)> {
    let close = closing(site.tokens, open);
    let mut found = Vec::new();
    let mut i = open + 1;
    while i < close {
        let named = i + 1 < close && site.text(i + 1) == ":";
        let start = if named { i + 2 } else { i };
        while i < close && site.text(i) != "," {
            i = if matches!(site.text(i), "(" | "[" | "{") {
                closing(site.tokens, i) + 1
            } else {
                i + 1
            };
        }
        if start < i && named == record {
            found.push((site.tokens[start].start, site.tokens[i - 1].end()));
        }
        i += 1;
    }
    found
}

/// Whether two operands are seen to have two types, so that they exchanged are no program.
fn unlike(site: &Site, a: (usize, usize), b: (usize, usize)) -> bool {
    match (
        type_of(site, &site.file[a.0..a.1]),
        type_of(site, &site.file[b.0..b.1]),
    ) {
        (Some(a), Some(b)) => {
            a != b && !(is_count(&a) && is_count(&b) && (a == "number" || b == "number"))
        }
        _ => false,
    }
}

fn is_count(name: &str) -> bool {
    name == "number"
        || name == "usize"
        || (name.starts_with(['i', 'u']) && name[1..].parse::<u32>().is_ok())
}

/// The type of a parameter of the part, or of a literal.
fn type_of(site: &Site, operand: &str) -> Option<String> {
    if matches!(operand, "true" | "false") {
        return Some("bool".to_string());
    }
    if operand.chars().all(|c| c.is_ascii_digit()) {
        return Some("number".to_string());
    }
    let from = site
        .tokens
        .iter()
        .position(|t| t.start == site.part.start)?;
    let name = (from..site.part.tokens.start)
        .find(|&i| site.text(i) == operand && site.text(i + 1) == ":")?;
    let words = (name + 2..).map(|i| site.text(i));
    Some(
        words
            .take_while(|word| !matches!(*word, "," | ")"))
            .collect(),
    )
}

/// Two statements of one line each that follow each other and bind no name.
pub fn statements(site: &Site) -> Vec<Edit> {
    let mut lines = Vec::new();
    let first = site.tokens[site.part.tokens.start].start;
    let last = site.tokens[site.part.tokens.end].start;
    let mut at = first;
    for line in site.file[first..last].split_inclusive('\n') {
        let trimmed = line.trim();
        let start = at + line.find(trimmed).unwrap_or(0);
        let moves = trimmed.ends_with(';')
            && !["let ", "return", "}", "//"]
                .iter()
                .any(|s| trimmed.starts_with(s));
        lines.push(moves.then_some((start, start + trimmed.len())));
        at += line.len();
    }
    lines
        .windows(2)
        .filter_map(|pair| site.exchange(pair[0]?, pair[1]?))
        .collect()
}

/// Each `if` that does nothing but return, as its place in the file.
fn guards(site: &Site) -> Vec<(usize, usize)> {
    site.places()
        .filter_map(|i| {
            if site.text(i) != "if" || !matches!(site.text(i - 1), ";" | "{" | "}") {
                return None;
            }
            let open = (i..).find(|&k| site.text(k) == "{")?;
            let close = closing(site.tokens, open);
            let returns = site.text(open + 1) == "return" && site.text(close + 1) != "else";
            returns.then_some((site.tokens[i].start, site.tokens[close].end()))
        })
        .collect()
}

pub fn guards_dropped(site: &Site) -> Vec<Edit> {
    let all = guards(site).into_iter();
    all.map(|(start, end)| Edit {
        start,
        end,
        new: String::new(),
    })
    .collect()
}

pub fn guards_exchanged(site: &Site) -> Vec<Edit> {
    let all = guards(site);
    let neighbours = all
        .windows(2)
        .filter(|pair| site.file[pair[0].1..pair[1].0].trim().is_empty());
    neighbours
        .filter_map(|pair| site.exchange(pair[0], pair[1]))
        .collect()
}
