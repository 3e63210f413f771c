//! A day of a building's lifts.

use crate::{Day, Label, Seeded};

/// The kinds of record, in the order of their names.
const TAGS: [&str; 7] = ["board", "call", "cancel", "door", "relevel", "stop", "trip"];

const BOARD: usize = 0;
const CALL: usize = 1;
const CANCEL: usize = 2;
const DOOR: usize = 3;
const RELEVEL: usize = 4;
const STOP: usize = 5;
const TRIP: usize = 6;

/// How often a caller presses again at most, each time inside the call before.
const MOST_AGAIN: usize = 5;

/// A lift day of exactly `records` records: calls, in which a caller may cancel, press again and at last board, and trips with their stops
/// and doors. Its numbers ascend in tree order, with a gap here and there.
pub fn lift_day(seed: u64, records: usize) -> Day {
    let mut log = Log { seeded: Seeded::new(seed), now: 0, left: records, lists: Default::default() };
    while log.left > 0 {
        if log.seeded.chance(2, 3) {
            log.call(MOST_AGAIN);
        } else {
            log.trip();
        }
    }
    let named = TAGS.iter().zip(log.lists).filter(|(_, list)| !list.is_empty());
    Day { lists: named.map(|(tag, list)| (tag.as_bytes().to_vec(), list)).collect() }
}

/// A day that is being written down, record by record in order of start, which is what keeps each list ascending.
struct Log {
    seeded: Seeded,
    /// The last number that was given out.
    now: u32,
    /// How many records may still be written.
    left: usize,
    lists: [Vec<Label>; TAGS.len()],
}

impl Log {
    /// The next number, at times after a gap.
    fn tick(&mut self) -> u32 {
        self.now += if self.seeded.chance(1, 8) { 1 + self.seeded.below(6) as u32 } else { 1 };
        self.now
    }

    /// A record with what `within` writes inside it, or nothing if the day is full.
    fn record(&mut self, tag: usize, within: impl FnOnce(&mut Log)) {
        if self.left == 0 {
            return;
        }
        self.left -= 1;
        let place = self.lists[tag].len();
        let start = self.tick();
        // The end is known once all that lies inside is written.
        self.lists[tag].push((start, start));
        within(self);
        self.lists[tag][place].1 = self.tick();
    }

    /// A call. A caller may cancel, may press again, `again` times at most, and may board.
    fn call(&mut self, again: usize) {
        self.record(CALL, |log| {
            if log.seeded.chance(2, 5) {
                log.record(CANCEL, |_| ());
            }
            if again > 0 && log.seeded.chance(1, 2) {
                log.call(again - 1);
            }
            if log.seeded.chance(1, 2) {
                log.record(BOARD, |_| ());
            }
        });
    }

    /// A trip of one to five stops. Somebody may call from inside the car between them.
    fn trip(&mut self) {
        self.record(TRIP, |log| {
            for _ in 0..1 + log.seeded.below(5) {
                if log.seeded.chance(1, 4) {
                    log.call(0);
                }
                log.stop();
            }
        });
    }

    /// A stop: a door that opens, or opens after the car was levelled again, or none.
    fn stop(&mut self) {
        self.record(STOP, |log| match log.seeded.below(8) {
            0 => (),
            1 | 2 => log.record(RELEVEL, |log| log.record(DOOR, |_| ())),
            _ => log.record(DOOR, |_| ()),
        });
    }
}

#[cfg(test)]
mod tests {
    use super::*;
    use crate::deepest::deepest;

    #[test]
    fn has_the_records_that_were_asked_for() {
        for records in [0, 1, 2, 7, 64, 1000, 10_007] {
            assert_eq!(lift_day(3, records).records(), records);
        }
    }

    #[test]
    fn lists_ascend_and_labels_nest_a_few_deep() {
        let day = lift_day(5, 10_000);
        assert_eq!(day.lists.len(), TAGS.len());
        assert!(day.lists.values().all(|list| list.is_sorted_by(|a, b| a.0 < b.0)));
        // The first call, five calls again, and a cancellation or a boarding in the last.
        assert_eq!(deepest(&day), 2 + MOST_AGAIN);
    }

    #[test]
    fn numbers_differ_and_have_gaps() {
        let day = lift_day(7, 5_000);
        let mut numbers: Vec<u32> = day.lists.values().flatten().flat_map(|label| [label.0, label.1]).collect();
        numbers.sort();
        assert!(numbers.is_sorted_by(|a, b| a < b));
        assert!(numbers[numbers.len() - 1] as usize > numbers.len());
    }

    #[test]
    fn the_seed_decides() {
        assert_eq!(lift_day(1, 500), lift_day(1, 500));
        assert_ne!(lift_day(1, 500), lift_day(2, 500));
    }
}
