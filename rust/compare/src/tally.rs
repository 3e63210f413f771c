//! What has been seen, so that a comparison cannot pass with nothing to compare.

use std::collections::BTreeMap;
use std::fmt;

/// So many cases of each kind.
#[derive(Default)]
pub struct Tally {
    counts: BTreeMap<String, u64>,
}

impl Tally {
    /// One more of this kind, if it is so.
    pub fn count(&mut self, kind: &str, is_so: bool) {
        if is_so {
            *self.counts.entry(kind.to_string()).or_default() += 1;
        }
    }

    /// How many there are of this kind.
    pub fn of(&self, kind: &str) -> u64 {
        self.counts.get(kind).copied().unwrap_or(0)
    }

    pub fn add(&mut self, other: Tally) {
        for (kind, count) in other.counts {
            *self.counts.entry(kind).or_default() += count;
        }
    }
}

impl fmt::Display for Tally {
    fn fmt(&self, f: &mut fmt::Formatter<'_>) -> fmt::Result {
        self.counts.iter().try_for_each(|(kind, count)| writeln!(f, "{count:>9} {kind}"))
    }
}
