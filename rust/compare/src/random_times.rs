//! Lists of times, in order or with something wrong in them.

use days::{rising, Seeded};

/// So many times in order: all the same, in small steps of which many are 0, in large ones, or in a few leaps. 0 and 4,294,967,295 are often
/// among them.
pub fn random_times(random: &mut Seeded, count: usize) -> Vec<u32> {
    let mut times = match random.below(5) {
        0 => vec![any_time(random); count],
        1 => rising(random, count, 3),
        2 => rising(random, count, u32::MAX as usize / (count + 1)),
        _ => in_leaps(random, count),
    };
    if let (Some(first), true) = (times.first_mut(), random.chance(1, 8)) {
        *first = 0;
    }
    if let (Some(last), true) = (times.last_mut(), random.chance(1, 8)) {
        *last = u32::MAX;
    }
    times
}

fn any_time(random: &mut Seeded) -> u32 {
    let any = random.number() as u32;
    *random.pick(&[0, 0, 1, 1_000, u32::MAX - 1, u32::MAX, any, any])
}

/// The least time, then the same or one half way, then the greatest, each over a stretch of numbers, so that a wait is as long as can be.
fn in_leaps(random: &mut Seeded, count: usize) -> Vec<u32> {
    let mut times: Vec<u32> = vec![0; count];
    let mut from = 0;
    let first = *random.pick(&[0, u32::MAX / 2]);
    for time in [first, u32::MAX] {
        from += random.below(count - from + 1);
        times[from..].fill(time);
    }
    times
}

/// How the times of a day may be wrong, or be right and unlike the number of entries that the day needs.
type Change = fn(&mut Seeded, &mut Vec<u32>, usize);

const CHANGES: [Change; 7] = [
    one_entry_too_few,
    some_entries_too_few,
    more_entries,
    |random, times, needed| descend(random, times, needed),
    |random, times, needed| {
        more_entries(random, times, needed);
        descend(random, times, needed);
    },
    |random, times, needed| {
        descend(random, times, needed);
        one_entry_too_few(random, times, needed);
    },
    |random, times, _| any_order(random, times),
];

/// Makes one change to the times of a day that needs so many entries. One that finds nothing to change does nothing.
pub fn change_times(random: &mut Seeded, times: &mut Vec<u32>, needed: usize) {
    let change: Change = *random.pick(&CHANGES);
    change(random, times, needed);
}

fn one_entry_too_few(_: &mut Seeded, times: &mut Vec<u32>, needed: usize) {
    times.truncate(needed.saturating_sub(1));
}

fn some_entries_too_few(random: &mut Seeded, times: &mut Vec<u32>, needed: usize) {
    times.truncate(random.below(needed + 1));
}

/// Entries past the numbers in use, in order.
fn more_entries(random: &mut Seeded, times: &mut Vec<u32>, _: usize) {
    let mut last = times.last().copied().unwrap_or(0);
    for _ in 0..1 + random.below(4) {
        last = *random.pick(&[last, last, last.saturating_add(1), u32::MAX]);
        times.push(last);
    }
}

/// Makes an entry smaller than the one before: the second, the last in use, the first past those, the last of all, or any.
fn descend(random: &mut Seeded, times: &mut [u32], needed: usize) {
    let places = [1, needed.saturating_sub(1), needed, times.len().saturating_sub(1), random.below(times.len() + 1)];
    let place = *random.pick(&places);
    if place == 0 || place >= times.len() {
        return;
    }
    if times[place - 1] == 0 {
        times[place - 1] = 1 + random.below(3) as u32;
    }
    let before = times[place - 1];
    let any_smaller = random.below(before as usize) as u32;
    times[place] = *random.pick(&[before - 1, before - 1, 0, any_smaller]);
}

fn any_order(random: &mut Seeded, times: &mut [u32]) {
    times.iter_mut().for_each(|time| *time = any_time(random));
}
