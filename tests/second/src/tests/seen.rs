//! How often each kind of case was met, so that a test can say that it met enough of each.

use std::collections::BTreeMap;

#[derive(Default)]
pub struct Seen(BTreeMap<&'static str, usize>);

impl Seen {
    pub fn count(&mut self, kind: &'static str, holds: bool) {
        *self.0.entry(kind).or_default() += usize::from(holds);
    }

    pub fn at_least(&self, least: &[(&str, usize)]) {
        for (kind, least) in least {
            let seen = self.0.get(kind).copied().unwrap_or(0);
            assert!(seen >= *least, "{kind}: {:?}", self.0);
        }
    }
}
