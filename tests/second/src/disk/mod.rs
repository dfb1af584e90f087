//! The book on disk: what the program `book` answers to its commands, and the text of the file that it keeps.

pub mod decimal;
pub mod entry;
pub mod keeping;
pub mod order;
pub mod text;
