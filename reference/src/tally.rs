//! Counts of what a test has met, so that it can claim that a thing did occur.

use std::collections::BTreeMap;

#[derive(Default)]
pub struct Tally {
    counts: BTreeMap<String, usize>,
}

impl Tally {
    pub fn add(&mut self, what: impl Into<String>) {
        *self.counts.entry(what.into()).or_default() += 1;
    }

    pub fn count(&self, what: &str) -> usize {
        self.counts.get(what).copied().unwrap_or(0)
    }

    /// The names of all that occurred.
    pub fn names(&self) -> impl Iterator<Item = &str> {
        self.counts.keys().map(String::as_str)
    }

    /// Fails unless the thing occurred so often.
    pub fn assert_at_least(&self, what: &str, least: usize) {
        let count = self.count(what);
        assert!(count >= least, "{what}: {count} times, not {least}");
    }

    /// All counts, one a line.
    pub fn print(&self, title: &str) {
        println!("{title}");
        for (what, count) in &self.counts {
            println!("{count:>9}  {what}");
        }
    }
}
