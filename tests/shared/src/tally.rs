//! Counts over cases, by name. Adding tallies up gives the same in any order.

use std::collections::{BTreeMap, BTreeSet};

/// A case in which something was wrong. The smallest is kept.
pub trait Fault: Send {
    fn smaller(&self, other: &Self) -> bool;
}

pub struct Tally<F> {
    counts: BTreeMap<&'static str, u64>,
    most: BTreeMap<&'static str, u64>,
    met: BTreeMap<&'static str, BTreeSet<usize>>,
    smallest: BTreeMap<&'static str, F>,
}

impl<F> Default for Tally<F> {
    fn default() -> Tally<F> {
        let (counts, most, met, smallest) = Default::default();
        Tally { counts, most, met, smallest }
    }
}

impl<F: Fault> Tally<F> {
    pub fn count(&mut self, what: &'static str) {
        self.count_many(what, 1);
    }

    pub fn count_many(&mut self, what: &'static str, count: u64) {
        *self.counts.entry(what).or_default() += count;
    }

    pub fn of(&self, what: &str) -> u64 {
        self.counts.get(what).copied().unwrap_or(0)
    }

    /// Keeps the greatest of the values.
    pub fn reach(&mut self, what: &'static str, value: u64) {
        let most = self.most.entry(what).or_default();
        *most = value.max(*most);
    }

    pub fn most(&self, what: &str) -> u64 {
        self.most.get(what).copied().unwrap_or(0)
    }

    /// Keeps each of the values.
    pub fn meet(&mut self, what: &'static str, value: usize) {
        self.met.entry(what).or_default().insert(value);
    }

    /// Those of the values that were not met.
    pub fn missing(&self, what: &str, mut values: impl Iterator<Item = usize>) -> Option<usize> {
        values.find(|value| !self.met.get(what).map_or(false, |met| met.contains(value)))
    }

    /// Counts it too.
    pub fn keep(&mut self, what: &'static str, fault: F) {
        self.count(what);
        self.keep_smallest(what, fault);
    }

    fn keep_smallest(&mut self, what: &'static str, fault: F) {
        if self.smallest.get(what).map_or(true, |kept| fault.smaller(kept)) {
            self.smallest.insert(what, fault);
        }
    }

    pub fn smallest(&mut self) -> BTreeMap<&'static str, F> {
        std::mem::take(&mut self.smallest)
    }

    pub fn add(&mut self, other: Tally<F>) {
        other.counts.into_iter().for_each(|(what, count)| self.count_many(what, count));
        other.most.into_iter().for_each(|(what, value)| self.reach(what, value));
        other.met.into_iter().for_each(|(what, met)| self.met.entry(what).or_default().extend(met));
        other.smallest.into_iter().for_each(|(what, fault)| self.keep_smallest(what, fault));
    }
}
