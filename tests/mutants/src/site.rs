//! A part of a source file in which edits are looked for.

use crate::source::{Kind, Part, Token};

/// A piece of the file, and what is put in its place.
pub struct Edit {
    pub start: usize,
    pub end: usize,
    pub new: String,
}

/// A part of a file, where edits are looked for.
pub struct Site<'a> {
    pub file: &'a str,
    pub tokens: &'a [Token<'a>],
    pub part: &'a Part,
}

impl<'a> Site<'a> {
    pub fn places(&self) -> std::ops::Range<usize> {
        self.part.tokens.clone()
    }

    pub fn text(&self, i: usize) -> &'a str {
        self.tokens[i].text
    }

    /// Whether the token at i ends an operand, so that a sign after it stands between two.
    pub fn ends_operand(&self, i: usize) -> bool {
        let token = &self.tokens[i];
        match token.kind {
            Kind::Sign => matches!(token.text, ")" | "]"),
            Kind::Word => !matches!(
                token.text,
                "return" | "if" | "while" | "match" | "in" | "as"
            ),
            _ => true,
        }
    }

    pub fn replace(&self, i: usize, new: &str) -> Edit {
        Edit {
            start: self.tokens[i].start,
            end: self.tokens[i].end(),
            new: new.to_string(),
        }
    }

    /// Exchanges two pieces of the file, of which the first ends before the second starts.
    pub fn exchange(&self, a: (usize, usize), b: (usize, usize)) -> Option<Edit> {
        let (first, between, second) = (
            &self.file[a.0..a.1],
            &self.file[a.1..b.0],
            &self.file[b.0..b.1],
        );
        let new = format!("{second}{between}{first}");
        (first != second).then_some(Edit {
            start: a.0,
            end: b.1,
            new,
        })
    }
}
