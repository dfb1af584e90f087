//! Edits of one token: another operator, another constant, another name.

use crate::site::{Edit, Site};
use crate::source::Kind;

const COMPARISONS: [(&str, &str); 6] = [
    ("<", "<="),
    ("<=", "<"),
    ("==", "!="),
    ("!=", "=="),
    (">", ">="),
    (">=", ">"),
];

const ARITHMETIC: [(&str, &str); 9] = [
    ("+", "-"),
    ("-", "+"),
    ("*", "+"),
    ("/", "*"),
    ("%", "/"),
    ("|", "&"),
    ("&", "|"),
    ("+=", "-="),
    ("-=", "+="),
];

/// Words that stand for like things, of which one may be taken for the other.
const PAIRS: [(&str, &str); 29] = [
    ("x", "y"),
    ("x1", "x2"),
    ("y1", "y2"),
    ("x1", "y1"),
    ("ax", "bx"),
    ("ay", "by"),
    ("ax", "ay"),
    ("a", "b"),
    ("first", "last"),
    ("start", "end"),
    ("left", "right"),
    ("bottom", "top"),
    ("left", "bottom"),
    ("num", "den"),
    ("t0", "t1"),
    ("number", "place"),
    ("here", "start"),
    ("here", "there"),
    ("i", "j"),
    ("n", "d"),
    ("m", "n"),
    ("p", "q"),
    ("lo", "hi"),
    ("u", "v"),
    ("high", "low"),
    ("from", "to"),
    ("base", "seen"),
    ("next", "step"),
    ("at", "next"),
];

pub fn comparisons(site: &Site) -> Vec<Edit> {
    operators(site, &COMPARISONS)
}

pub fn arithmetic(site: &Site) -> Vec<Edit> {
    operators(site, &ARITHMETIC)
}

/// Each operator between two operands that has another in the table.
fn operators(site: &Site, changes: &[(&str, &str)]) -> Vec<Edit> {
    let between = site
        .places()
        .filter(|&i| site.tokens[i].kind == Kind::Sign && site.ends_operand(i - 1));
    between
        .flat_map(|i| {
            changes
                .iter()
                .filter(move |c| c.0 == site.text(i))
                .map(move |c| site.replace(i, c.1))
        })
        .collect()
}

/// true and false, and and or, and a not that is left out.
pub fn logic(site: &Site) -> Vec<Edit> {
    site.places()
        .filter_map(|i| {
            let new = match site.text(i) {
                "true" => "false",
                "false" => "true",
                "&&" => "||",
                "||" => "&&",
                "!" => "",
                _ => return None,
            };
            Some(site.replace(i, new))
        })
        .collect()
}

/// One more than a number, or the next byte.
pub fn constants(site: &Site) -> Vec<Edit> {
    site.places()
        .filter_map(|i| {
            let token = &site.tokens[i];
            let new = match token.kind {
                Kind::Number => next_number(token.text)?,
                Kind::Byte => next_byte(token.text)?,
                _ => return None,
            };
            Some(site.replace(i, &new))
        })
        .collect()
}

fn next_number(text: &str) -> Option<String> {
    if let Some(digits) = text.strip_prefix("0x") {
        return Some(format!(
            "0x{:x}",
            u64::from_str_radix(&digits.replace('_', ""), 16).ok()? + 1
        ));
    }
    let length = text
        .find(|c: char| !c.is_ascii_digit() && c != '_')
        .unwrap_or(text.len());
    let more = text[..length].replace('_', "").parse::<u64>().ok()? + 1;
    Some(format!("{more}{}", &text[length..]))
}

fn next_byte(text: &str) -> Option<String> {
    let [b'b', b'\'', c, b'\''] = text.as_bytes() else {
        return None;
    };
    let next = char::from(c + 1);
    (!matches!(next, '\'' | '\\')).then(|| format!("b'{next}'"))
}

pub fn fields(site: &Site) -> Vec<Edit> {
    exchanged_words(site, true)
}

pub fn names(site: &Site) -> Vec<Edit> {
    exchanged_words(site, false)
}

/// A field, or a name, taken for its like, where that is a word of the same file, or of the same part.
fn exchanged_words(site: &Site, fields: bool) -> Vec<Edit> {
    let mut edits = Vec::new();
    for i in site.places() {
        let before = site.text(i - 1);
        let after = site.text(i + 1);
        let is_field = before == ".";
        let is_name =
            !matches!(before, "." | "::" | "let" | "mut") && !matches!(after, "(" | "::" | ":");
        if fields != is_field || !(is_field || is_name) {
            continue;
        }
        for (a, b) in PAIRS {
            let like = match site.text(i) {
                t if t == a => b,
                t if t == b => a,
                _ => continue,
            };
            let near = if is_field {
                0..site.tokens.len()
            } else {
                site.places()
            };
            if near.into_iter().any(|k| site.text(k) == like) {
                edits.push(site.replace(i, like));
            }
        }
    }
    edits
}
