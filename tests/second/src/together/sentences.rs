//! What is promised of neighbouring strips, in the words in which it is told where it does not hold.

pub const NO_ANSWER: &str = "each of the three answers has the form of an answer to its line";
pub const ALIKE: &str = "what the two strips take or refuse, the joined window takes or refuses";
pub const KEPT: &str = "a stroke is kept by the joined window exactly when one of the two keeps it";
pub const TOGETHER: &str = "the parts together are the joined part";
pub const ONE_FRACTION: &str = "if both keep it and dx is not 0, they share exactly one fraction";
pub const SAME_POINT: &str = "the rounded point at the shared fraction is the same number for both";
pub const ALONG: &str =
    "a stroke along the common border is kept by both, with equal fractions, or by neither";
pub const ROWS: &str = "a stroke's row is in the joined batch exactly when it is in one of the two";

pub fn holds(sentence: &'static str, so: bool) -> Result<(), &'static str> {
    so.then_some(()).ok_or(sentence)
}
