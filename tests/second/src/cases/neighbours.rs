//! Two strips side by side, the window that they make together, and the lines that ask all three about a stroke or a list.

use super::batches;
use super::stroke_kinds::Stroke;
use super::strokes;
use super::windows::Window;
use crate::batch::{rows, Touches};
use crate::call::{read, Call};
use crate::rectangle::faults;

/// The strips have the bottom and the top of the joined window; the border is the right of the one and the left of the other.
#[derive(Clone, Copy, Debug)]
pub struct Neighbours {
    pub joined: Window,
    pub border: i32,
}

impl Neighbours {
    /// The left strip, the right one, and the joined window.
    pub fn windows(&self) -> [Window; 3] {
        let [left, bottom, right, top] = self.joined;
        [
            [left, bottom, self.border, top],
            [self.border, bottom, right, top],
            self.joined,
        ]
    }

    /// How much room a list needs with its touches: the joined window gives every row that a strip gives.
    pub fn needed(&self, list: &[i32]) -> usize {
        rows(Touches::Given, self.joined, list).len()
    }

    /// Nothing is promised of windows that are refused themselves.
    fn are_windows(&self) -> bool {
        let [left, right, _] = self.windows();
        [left, right].map(faults) == [[None; 2]; 2]
    }
}

/// What all three windows are asked about.
#[derive(Clone, Debug)]
pub enum Asked {
    Stroke(Stroke),
    /// In this much room.
    List(usize, Vec<i32>),
}

#[derive(Clone, Debug)]
pub struct Group {
    pub strips: Neighbours,
    pub asked: Asked,
}

impl Group {
    /// The desk's words that ask it, three lines each: a stroke by both rules, a list with its touches and without them.
    pub fn words(&self) -> &'static [&'static str] {
        match self.asked {
            Asked::Stroke(_) => &["lb", "cs"],
            Asked::List(..) => &["touches", "batch"],
        }
    }

    pub fn lines(&self) -> Vec<Vec<u8>> {
        let by = |word: &&str| self.strips.windows().map(|window| self.line(word, window));
        self.words().iter().flat_map(by).collect()
    }

    fn line(&self, word: &str, window: Window) -> Vec<u8> {
        match &self.asked {
            Asked::Stroke(stroke) => strokes::of(word, window, *stroke),
            Asked::List(room, list) => {
                let touches = match word {
                    "touches" => Touches::Given,
                    _ => Touches::LeftOut,
                };
                batches::of(touches, *room, window, list)
            }
        }
    }

    /// The group that these lines begin with; none where they begin otherwise.
    pub fn first_of(lines: &[&[u8]]) -> Option<Group> {
        let ([_, _, border, _], _) = asked(lines.first()?)?;
        let (joined, asked) = asked(lines.get(2)?)?;
        let strips = Neighbours { joined, border };
        let group = Group { strips, asked };
        let made = group.lines();
        let front = lines.get(..made.len())?;
        (strips.are_windows() && front == made).then_some(group)
    }
}

fn asked(line: &[u8]) -> Option<(Window, Asked)> {
    match read(line)? {
        Call::LiangBarsky(window, stroke) => Some((window, Asked::Stroke(stroke))),
        Call::Batch(Touches::Given, room, window, list) => Some((window, Asked::List(room, list))),
        _ => None,
    }
}
