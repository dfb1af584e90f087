//! A source file taken apart: its tokens, and the parts of it that run.

use std::ops::Range;

#[derive(Clone, Copy, PartialEq, Eq, Debug)]
pub enum Kind {
    Word,
    Number,
    /// A byte such as b'x'.
    Byte,
    /// A string.
    Text,
    Sign,
}

pub struct Token<'a> {
    pub kind: Kind,
    pub text: &'a str,
    /// Its first byte's place in the file.
    pub start: usize,
}

impl Token<'_> {
    pub fn end(&self) -> usize {
        self.start + self.text.len()
    }
}

/// A function's body, or what a constant is set to: the only places that are changed.
pub struct Part {
    pub name: String,
    /// Where its `fn` or `const` stands in the file.
    pub start: usize,
    /// Its tokens, without the braces.
    pub tokens: Range<usize>,
}

/// Signs of two or three characters; every other sign is one character.
const SIGNS: [&str; 17] = [
    "..=", "::", "->", "=>", "<=", ">=", "==", "!=", "+=", "-=", "*=", "/=", "&&", "||", "<<",
    ">>", "..",
];

/// The tokens of a file; comments are passed over.
pub fn tokens(file: &str) -> Vec<Token<'_>> {
    let mut found = Vec::new();
    let mut at = 0;
    while let Some(c) = file[at..].chars().next() {
        let rest = &file[at..];
        if c.is_whitespace() {
            at += c.len_utf8();
            continue;
        }
        if rest.starts_with("//") {
            at += rest.find('\n').unwrap_or(rest.len());
            continue;
        }
        let (kind, length) = first_token(rest, c);
        found.push(Token {
            kind,
            text: &rest[..length],
            start: at,
        });
        at += length;
    }
    found
}

fn first_token(rest: &str, c: char) -> (Kind, usize) {
    if rest.starts_with("b'") {
        return (Kind::Byte, quoted(rest, 1, '\''));
    }
    if rest.starts_with("b\"") {
        return (Kind::Text, quoted(rest, 1, '"'));
    }
    if c.is_ascii_digit() {
        return (Kind::Number, number_length(rest));
    }
    if c.is_alphabetic() || c == '_' {
        return (
            Kind::Word,
            length_while(rest, |c| c.is_alphanumeric() || c == '_'),
        );
    }
    let sign = SIGNS.iter().find(|s| rest.starts_with(**s));
    (Kind::Sign, sign.map_or(c.len_utf8(), |s| s.len()))
}

fn length_while(rest: &str, holds: impl Fn(char) -> bool) -> usize {
    rest.find(|c| !holds(c)).unwrap_or(rest.len())
}

/// Digits with their base and type; a point belongs to it only where a digit follows.
fn number_length(rest: &str) -> usize {
    let whole = length_while(rest, |c| c.is_ascii_alphanumeric() || c == '_');
    let behind = &rest[whole..];
    if behind.starts_with('.') && behind[1..].starts_with(|c: char| c.is_ascii_digit()) {
        return whole + 1 + length_while(&behind[1..], |c| c.is_ascii_alphanumeric());
    }
    whole
}

/// The length of a quoted token whose opening quote stands at `open`.
fn quoted(rest: &str, open: usize, quote: char) -> usize {
    let mut escaped = false;
    for (i, c) in rest[open + 1..].char_indices() {
        if c == quote && !escaped {
            return open + 1 + i + 1;
        }
        escaped = c == '\\' && !escaped;
    }
    rest.len()
}

/// The token that closes the bracket at `open`.
pub fn closing(tokens: &[Token], open: usize) -> usize {
    let mut depth = 0;
    for (i, token) in tokens.iter().enumerate().skip(open) {
        match token.text {
            "(" | "[" | "{" => depth += 1,
            ")" | "]" | "}" => {
                depth -= 1;
                if depth == 0 {
                    return i;
                }
            }
            _ => {}
        }
    }
    panic!("a bracket is not closed");
}

/// The parts that run. Contracts, types and `use` lines are in none of them.
pub fn parts(tokens: &[Token]) -> Vec<Part> {
    let mut found = Vec::new();
    let mut i = 0;
    while i < tokens.len() {
        let inside = match tokens[i].text {
            "fn" => body(tokens, i),
            "const" => value(tokens, i),
            _ => {
                i += 1;
                continue;
            }
        };
        let name = tokens[i + 1].text.to_string();
        found.push(Part {
            name,
            start: tokens[i].start,
            tokens: inside.clone(),
        });
        i = inside.end;
    }
    found
}

/// The body of the function at `i`: the first braces that are not a contract's.
fn body(tokens: &[Token], mut i: usize) -> Range<usize> {
    loop {
        match tokens[i].text {
            "requires" | "ensures" => i = closing(tokens, i + 1) + 1,
            "{" => return i + 1..closing(tokens, i),
            _ => i += 1,
        }
    }
}

/// What the constant at `i` is set to.
fn value(tokens: &[Token], i: usize) -> Range<usize> {
    let place = |from: usize, sign| {
        from + tokens[from..]
            .iter()
            .position(|t| t.text == sign)
            .expect("a constant's end")
    };
    let set = place(i, "=");
    set + 1..place(set, ";")
}
