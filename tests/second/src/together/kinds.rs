//! The kinds of cases that a lot on neighbouring strips has, counted for each word of the desk. Where one is missing, some
//! sentence holds of nothing.

use std::collections::BTreeMap;
use std::fmt;
use Kind::*;

#[derive(Clone, Copy, Debug, PartialEq, Eq, PartialOrd, Ord)]
pub enum Kind {
    /// Each strip keeps more than one point of a stroke with dx > 0, or with dx < 0.
    CrossingRightward,
    CrossingLeftward,
    /// Both strips keep it, but all that one of them keeps, or each, is the point at the border.
    TouchingOne,
    TouchingBoth,
    AlongKept,
    AlongMissed,
    ByBoth,
    ByOne,
    ByNone,
    Refused,
}

const OF_A_STROKE: [Kind; 9] = [
    CrossingRightward,
    CrossingLeftward,
    TouchingOne,
    TouchingBoth,
    AlongKept,
    AlongMissed,
    ByOne,
    ByNone,
    Refused,
];
/// Of every stroke in a list, and of a whole list.
const OF_A_LIST: [Kind; 4] = [ByBoth, ByOne, ByNone, Refused];
const WANTED: [(&str, &[Kind]); 4] = [
    ("lb", &OF_A_STROKE),
    ("cs", &OF_A_STROKE),
    ("touches", &OF_A_LIST),
    ("batch", &OF_A_LIST),
];

impl fmt::Display for Kind {
    fn fmt(&self, to: &mut fmt::Formatter) -> fmt::Result {
        to.write_str(match self {
            CrossingRightward => "crossing rightward",
            CrossingLeftward => "crossing leftward",
            TouchingOne => "touching one at the border",
            TouchingBoth => "touching both at the border",
            AlongKept => "along the border and kept",
            AlongMissed => "along the border and missed",
            ByBoth => "kept by both",
            ByOne => "kept by one",
            ByNone => "kept by none",
            Refused => "refused",
        })
    }
}

#[derive(Default)]
pub struct Tally {
    pub groups: usize,
    seen: BTreeMap<(&'static str, Kind), usize>,
}

impl Tally {
    pub fn note(&mut self, word: &'static str, kinds: &[Kind]) {
        for kind in kinds {
            *self.seen.entry((word, *kind)).or_default() += 1;
        }
    }

    pub fn count(&self, word: &'static str, kind: Kind) -> usize {
        self.seen.get(&(word, kind)).copied().unwrap_or(0)
    }

    /// Each with the word that should have it.
    pub fn missing(&self) -> Vec<String> {
        let each = |(word, kinds): (&'static str, &'static [Kind])| {
            kinds.iter().map(move |kind| (word, *kind))
        };
        let wanted = WANTED.into_iter().flat_map(each);
        wanted
            .filter(|(word, kind)| self.count(word, *kind) == 0)
            .map(|(word, kind)| format!("{word} {kind}"))
            .collect()
    }
}

impl fmt::Display for Tally {
    fn fmt(&self, to: &mut fmt::Formatter) -> fmt::Result {
        write!(to, "{} groups held", self.groups)?;
        for (word, kinds) in WANTED {
            let counts = kinds
                .iter()
                .map(|kind| format!("{} {kind}", self.count(word, *kind)));
            write!(to, "\n{word}: {}", counts.collect::<Vec<_>>().join(", "))?;
        }
        Ok(())
    }
}
