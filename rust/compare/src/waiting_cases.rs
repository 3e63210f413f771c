//! What one seed gives for the waiting table: an index, and a list of times.

use crate::damaged_index::damage_index;
use crate::random_days::{random_day, random_day_of_low_numbers, Shape};
use crate::random_times::{change_times, random_times};
use days::{lift_day, Day, Seeded};
use std::fmt;

pub struct WaitingCase {
    pub index: Vec<u8>,
    pub times: Vec<u32>,
    /// The day of which this is the index, unless the index is a damaged one.
    pub day: Option<Day>,
}

/// Names that no waiting table looks at, though some are nearly those that it does.
const OTHERS: [&str; 6] = ["Call", "boar", "call.", "canceled", "door", "zone"];

/// A day of a few records, mostly calls, boardings and cancellations, with times that are often wrong in some way. Now and then the index is
/// damaged.
pub fn waiting_case(seed: u64) -> WaitingCase {
    let random = &mut Seeded::new(seed);
    let day = waiting_day(random);
    let times = times_of(random, &day);
    let mut index = day.to_bytes();
    let damages = *random.pick(&[0, 0, 0, 0, 0, 0, 1, 2]);
    for _ in 0..damages {
        damage_index(random, &mut index);
    }
    WaitingCase { day: (damages == 0).then_some(day), index, times }
}

/// A lawful day of up to 1,000 records, of lifts or any, with times that are often wrong in some way.
pub fn larger_waiting_case(seed: u64) -> WaitingCase {
    let random = &mut Seeded::new(seed);
    let records = 50 + random.below(951);
    let day = if random.chance(1, 2) {
        lift_day(seed, records)
    } else {
        let (deepest, opening) = (*random.pick(&[2, 5, 64]), 2 + random.below(5));
        let shape = Shape { records, names: any_names(random), deepest, opening, tag_by_depth: random.chance(1, 4) };
        random_day_of_low_numbers(random, &shape)
    };
    WaitingCase { index: day.to_bytes(), times: times_of(random, &day), day: Some(day) }
}

/// More entries than this no list gets, whatever the day's numbers are.
const MOST_TIMES: usize = 20_000;

/// Times for a day, every other time with a change. Where a day has high numbers, these have no entries.
fn times_of(random: &mut Seeded, day: &Day) -> Vec<u32> {
    let needed = match day.entries_needed() {
        needed @ 0..MOST_TIMES => needed,
        _ => 100,
    };
    let mut times = random_times(random, needed);
    if random.chance(1, 2) {
        change_times(random, &mut times, needed);
    }
    times
}

fn waiting_day(random: &mut Seeded) -> Day {
    let mut shape = Shape {
        records: if random.chance(1, 32) { 0 } else { random.below(13).max(random.below(13)) },
        names: any_names(random),
        deepest: 1 + random.below(12).max(random.below(12)),
        opening: 3 + random.below(5),
        tag_by_depth: random.chance(1, 4),
    };
    if random.chance(1, 64) {
        // So deep that 65 may be nested.
        (shape.records, shape.deepest, shape.opening) = (60 + random.below(12), 63 + random.below(3), 8);
    }
    if random.chance(1, 16) {
        return random_day(random, &shape);
    }
    let mut day = random_day_of_low_numbers(random, &shape);
    if random.chance(1, 4) {
        add_another_behind(random, &mut day);
    }
    day
}

/// The names of a day's tags, of which the first are the likelier ones. Each may be missing.
fn any_names(random: &mut Seeded) -> Vec<String> {
    let mut names: Vec<&str> = Vec::new();
    for (name, missing) in [("call", 1), ("board", 2), ("cancel", 2)] {
        if !random.chance(missing, 16) {
            names.push(name);
        }
    }
    if names.is_empty() || random.chance(1, 4) {
        names.push(*random.pick(&OTHERS));
    }
    let first = random.below(names.len());
    names.rotate_left(first);
    names.into_iter().map(String::from).collect()
}

/// A record of another tag behind all others or around them, so that the greatest number is its own.
fn add_another_behind(random: &mut Seeded, day: &mut Day) {
    let behind = day.entries_needed() as u32 + random.below(3) as u32;
    let from_0 = day.lists.values().flatten().any(|label| label.0 == 0);
    let around = !from_0 && random.chance(1, 2);
    let start = if around { 0 } else { behind };
    let name = *random.pick(&OTHERS);
    day.push(name, (start, behind + 1 + random.below(3) as u32));
    day.sort();
}

impl fmt::Display for WaitingCase {
    /// All that is needed to put the case again.
    fn fmt(&self, f: &mut fmt::Formatter<'_>) -> fmt::Result {
        writeln!(f, "times: {:?}", self.times)?;
        write!(f, "index of {} bytes: ", self.index.len())?;
        self.index.iter().try_for_each(|byte| write!(f, "{byte:02x}"))
    }
}
