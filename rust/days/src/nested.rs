//! Days of deep chains.

use crate::{Day, Label, Seeded};

/// A day of exactly `records` records in chains of `depth` records, each inside the one before; the last chain may be shorter. They have
/// `tags` tags, `t000` and so on, each with a row even if no record has it. A record has its outer record's tag every other time and any
/// tag else, so that records lie in records of their own tag however many tags there are. A depth over 64 makes a day that is not lawful.
pub fn nested_day(seed: u64, records: usize, tags: usize, depth: usize) -> Day {
    let mut seeded = Seeded::new(seed);
    let mut lists: Vec<Vec<Label>> = vec![Vec::new(); tags];
    let mut now = 0;
    let mut left = records;
    while left > 0 {
        let length = depth.min(left);
        now = chain(&mut seeded, &mut lists, now, length);
        left -= length;
    }
    let named = lists.into_iter().enumerate();
    Day { lists: named.map(|(tag, list)| (format!("t{tag:03}").into_bytes(), list)).collect() }
}

/// A chain of `length` records behind the number `now`. Gives the last number used.
fn chain(seeded: &mut Seeded, lists: &mut [Vec<Label>], now: u32, length: usize) -> u32 {
    let last = now + 2 * length as u32;
    let mut tag = seeded.below(lists.len());
    for inside in 0..length as u32 {
        lists[tag].push((now + 1 + inside, last - inside));
        if seeded.chance(1, 2) {
            tag = seeded.below(lists.len());
        }
    }
    last
}

#[cfg(test)]
mod tests {
    use super::*;
    use crate::deepest::deepest;

    #[test]
    fn has_the_records_tags_and_depth_that_were_asked_for() {
        for (records, tags, depth) in [(1, 1, 1), (1000, 1, 64), (1000, 17, 64), (5000, 256, 8), (100, 256, 1)] {
            let day = nested_day(11, records, tags, depth);
            assert_eq!(day.records(), records);
            assert_eq!(day.lists.len(), tags);
            assert_eq!(deepest(&day), depth);
            assert!(day.lists.values().all(|list| list.is_sorted_by(|a, b| a.0 < b.0)));
        }
        assert_eq!(nested_day(11, 0, 3, 64).records(), 0);
    }

    #[test]
    fn records_lie_in_records_of_their_tag() {
        let day = nested_day(13, 10_000, 256, 64);
        let within = |list: &Vec<Label>| list.windows(2).any(|pair| pair[1].1 < pair[0].1);
        assert!(day.lists.values().filter(|list| within(list)).count() > 200);
    }
}
