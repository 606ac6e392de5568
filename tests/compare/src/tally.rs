//! Counts of what was met, by short names such as "receipt A" or "restore 12".

use std::collections::{BTreeMap, BTreeSet};
use std::fmt;

#[derive(Default)]
pub struct Tally {
    counts: BTreeMap<String, u64>,
}

impl Tally {
    pub fn note(&mut self, name: impl Into<String>) {
        *self.counts.entry(name.into()).or_default() += 1;
    }

    pub fn count(&self, name: &str) -> u64 {
        self.counts.get(name).copied().unwrap_or(0)
    }

    /// How often any name with this front was met.
    pub fn sum(&self, front: &str) -> u64 {
        let named = self
            .counts
            .iter()
            .filter(|(name, _)| name.starts_with(front));
        named.map(|(_, count)| count).sum()
    }

    /// The returned numbers that were met at a call; rules are left out.
    pub fn numbers_at(&self, call: &str) -> BTreeSet<i64> {
        let names = self
            .counts
            .keys()
            .filter_map(|name| name.strip_prefix(call));
        let behind = names.filter_map(|name| name.strip_prefix(' '));
        let number = |rest: &str| {
            let end = rest.find(|c: char| !c.is_ascii_digit());
            rest[..end.unwrap_or(rest.len())].parse().ok()
        };
        behind.filter_map(number).collect()
    }

    /// Takes in the counts of another tally.
    pub fn join(&mut self, other: Tally) {
        for (name, count) in other.counts {
            *self.counts.entry(name).or_default() += count;
        }
    }

    /// Every one of these was met.
    pub fn assert_met(&self, names: &[&str]) {
        for name in names {
            assert!(self.count(name) > 0, "{name} was never met:\n{self}");
        }
    }

    /// None of these was met.
    pub fn assert_never(&self, names: &[&str]) {
        for name in names {
            assert_eq!(self.count(name), 0, "{name} was met:\n{self}");
        }
    }
}

impl fmt::Display for Tally {
    fn fmt(&self, f: &mut fmt::Formatter) -> fmt::Result {
        for (name, count) in &self.counts {
            writeln!(f, "{count:>10} {name}")?;
        }
        Ok(())
    }
}
