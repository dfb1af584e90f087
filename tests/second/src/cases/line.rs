//! A line for the desk, word by word.

use std::fmt::Display;

pub struct Line(String);

impl Line {
    pub fn of(command: &str) -> Line {
        Line(command.to_string())
    }

    pub fn word(mut self, word: impl Display) -> Line {
        self.0 += &format!(" {word}");
        self
    }

    pub fn words<T: Display>(self, words: &[T]) -> Line {
        words.iter().fold(self, Line::word)
    }

    /// How many, then each.
    pub fn list(self, numbers: &[i32]) -> Line {
        self.word(numbers.len()).words(numbers)
    }

    pub fn file(self, bytes: &[u8]) -> Line {
        if bytes.is_empty() {
            return self.word('-');
        }
        let pairs: Vec<String> = bytes.iter().map(|byte| format!("{byte:02x}")).collect();
        self.word(pairs.concat())
    }

    pub fn end(self) -> Vec<u8> {
        self.0.into_bytes()
    }
}

/// A line and its answer.
pub type Answered = (Vec<u8>, String);

/// Lines written out in full.
pub fn all(text: &[&str]) -> Vec<Vec<u8>> {
    text.iter().map(|line| line.as_bytes().to_vec()).collect()
}
