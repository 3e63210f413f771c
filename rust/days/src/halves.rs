//! A day in two halves.

use crate::{Day, Label};

/// A day of exactly `records` records: of its records `t`, none inside another, the second half lies in the one record `half`, and the first
/// half before it. So a look from that record at the list's beginning goes half of the list. `records` has to be more than 0.
pub fn halves_day(records: usize) -> Day {
    let others = records as u32 - 1;
    let first = others / 2;
    let label = |i: u32| -> Label { (2 * i, 2 * i + 1) };
    let mut day = Day::new();
    day.lists.insert(b"t".to_vec(), (0..others).map(|i| label(if i < first { i } else { i + 1 })).collect());
    day.push("half", (2 * first, 2 * others + 2));
    day
}

#[cfg(test)]
mod tests {
    use super::*;

    #[test]
    fn the_second_half_lies_in_the_record() {
        for records in [1, 2, 3, 10, 101] {
            let day = halves_day(records);
            assert_eq!(day.records(), records);
            let (start, end) = day.lists[b"half".as_slice()][0];
            let list = &day.lists[b"t".as_slice()];
            let inside = list.iter().filter(|label| start < label.0 && label.1 < end).count();
            let before = list.iter().filter(|label| label.1 < start).count();
            assert_eq!((before, inside), ((records - 1) / 2, records / 2));
            assert!(list.is_sorted_by(|a, b| a.1 < b.0));
        }
    }
}
