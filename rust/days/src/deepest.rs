//! How deep a day is, for the tests of the days that are made here.

use crate::{Day, Label};

/// The most records that lie each inside the one before. Any two records have to lie one inside the other or apart.
pub fn deepest(day: &Day) -> usize {
    let mut labels: Vec<Label> = day.lists.values().flatten().copied().collect();
    labels.sort();
    let mut open: Vec<u32> = Vec::new();
    let mut deepest = 0;
    for (start, end) in labels {
        while open.pop_if(|outer| *outer < start).is_some() {}
        assert!(start < end && open.last().is_none_or(|outer| end < *outer));
        open.push(end);
        deepest = deepest.max(open.len());
    }
    deepest
}
