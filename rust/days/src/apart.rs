//! Days of few records among many.

use crate::{Day, Seeded};

/// A day of exactly `records` records: `b`, none inside another, and around some of them an `a`, with any number below twice `distance` of
/// other `b` before it. So a look from an `a` to the next `b` goes about `distance` labels on. `distance` has to be more than 0.
pub fn apart_day(seed: u64, records: usize, distance: usize) -> Day {
    let mut seeded = Seeded::new(seed);
    let mut day = Day::new();
    let mut now = 0;
    let mut alone = seeded.below(2 * distance);
    let mut left = records;
    while left > 0 {
        let around = alone == 0 && left > 1;
        if around {
            day.push("a", (now, now + 3));
            alone = seeded.below(2 * distance);
        } else {
            alone = alone.saturating_sub(1);
        }
        day.push("b", (now + 1, now + 2));
        now += 4;
        left -= 1 + usize::from(around);
    }
    day
}

#[cfg(test)]
mod tests {
    use super::*;

    #[test]
    fn has_an_outer_record_about_as_often_as_was_asked_for() {
        assert_eq!(apart_day(3, 0, 1), Day::new());
        for (records, distance) in [(1, 1), (10_000, 1), (10_000, 10), (100_000, 100)] {
            let day = apart_day(3, records, distance);
            assert_eq!(day.records(), records);
            let [outer, inner] = [b"a", b"b"].map(|tag| day.lists.get(tag.as_slice()).map_or(0, Vec::len));
            assert!(day.lists.values().all(|list| list.is_sorted_by(|a, b| a.1 < b.0)));
            assert!(records == 1 || (inner / (distance + 1)).abs_diff(outer) < inner / (2 * distance + 2));
        }
    }
}
