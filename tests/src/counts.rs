//! How often each of several things was met.

use std::collections::BTreeMap;
use std::fmt::Display;

#[derive(Default)]
pub struct Counts<K>(BTreeMap<K, usize>);

impl<K: Display + Ord> Counts<K> {
    pub fn add(&mut self, met: K) {
        *self.0.entry(met).or_default() += 1;
    }

    /// All counts together.
    pub fn sum(&self) -> usize {
        self.0.values().sum()
    }

    /// The count of one of them.
    pub fn count(&self, thing: &K) -> usize {
        self.0.get(thing).copied().unwrap_or(0)
    }

    /// The names of these things, each with its count.
    pub fn of(&self, things: &[K]) -> Vec<(String, usize)> {
        let named = |thing: &K| (thing.to_string(), self.count(thing));
        things.iter().map(named).collect()
    }
}
