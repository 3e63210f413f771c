//! Lawful days, and days that are only too deep.

use days::{Day, Seeded};

/// Names that begin alike, that differ in case only, and one as long as a name can be.
pub const NAMES: [&str; 12] = ["a", "A", "aa", "a.", "a-1", "ab", "_", "call", "cancel", "caller", "abcdefghijklmno", "abcdefghijklmnop"];

/// What a random day is like.
pub struct Shape {
    pub records: usize,
    pub names: Vec<String>,
    /// So many records are nested at most.
    pub deepest: usize,
    /// So often, out of 8 times, a record is opened rather than the last open one closed.
    pub opening: usize,
    /// Whether a record's tag follows from the number of records around it, as in a day of lifts, or is any.
    pub tag_by_depth: bool,
}

/// A day of this shape.
pub fn random_day(random: &mut Seeded, shape: &Shape) -> Day {
    day_at(random, shape, ascending_numbers)
}

/// A day of this shape with numbers so low that a short list of times has an entry for each of them.
pub fn random_day_of_low_numbers(random: &mut Seeded, shape: &Shape) -> Day {
    day_at(random, shape, low_numbers)
}

/// A day whose records are opened and closed at ascending numbers, so that no two share a number or cross.
fn day_at(random: &mut Seeded, shape: &Shape, numbers: fn(&mut Seeded, usize) -> Vec<u32>) -> Day {
    let mut day = Day::new();
    if random.chance(1, 2) {
        // Tags that get no record have a row with the number 0.
        day.lists.extend(shape.names.iter().map(|name| (name.clone().into_bytes(), Vec::new())));
    }
    let mut left = shape.records;
    let mut open = Vec::new();
    for number in numbers(random, 2 * shape.records) {
        let may_open = left > 0 && open.len() < shape.deepest;
        if may_open && (open.is_empty() || random.chance(shape.opening, 8)) {
            open.push((tag(random, shape, open.len()), number));
            left -= 1;
        } else {
            let (name, start) = open.pop().expect("a record is open when none can be opened");
            day.push(name, (start, number));
        }
    }
    day.sort();
    day
}

/// The tag of a record with so many around it. The first names are the likelier ones.
fn tag<'a>(random: &mut Seeded, shape: &'a Shape, around: usize) -> &'a str {
    let names = shape.names.len();
    let any = random.below(names).min(random.below(names));
    &shape.names[if shape.tag_by_depth && random.chance(7, 8) { around % names } else { any }]
}

/// So many numbers, without gaps, with small ones or with large ones; sometimes the first is 0, sometimes the last is 4,294,967,295.
fn ascending_numbers(random: &mut Seeded, count: usize) -> Vec<u32> {
    let widest_gap = *random.pick(&[1, 3, u32::MAX as usize / (count + 1)]);
    let mut numbers = with_gaps(random, count, widest_gap);
    let last = numbers.last().copied().unwrap_or(0);
    if random.chance(1, 4) {
        numbers.iter_mut().for_each(|number| *number += u32::MAX - last);
    }
    may_begin_at_0(random, &mut numbers);
    if let (Some(last), true) = (numbers.last_mut(), random.chance(1, 4)) {
        *last = u32::MAX;
    }
    numbers
}

/// So many numbers, without gaps or with small ones; sometimes the first is 0.
fn low_numbers(random: &mut Seeded, count: usize) -> Vec<u32> {
    let widest_gap = *random.pick(&[1, 2, 5]);
    let mut numbers = with_gaps(random, count, widest_gap);
    may_begin_at_0(random, &mut numbers);
    numbers
}

/// So many numbers behind 0, each at most so far behind the one before.
fn with_gaps(random: &mut Seeded, count: usize, widest_gap: usize) -> Vec<u32> {
    let mut last = 0;
    let mut next = |_| {
        last += 1 + random.below(widest_gap) as u32;
        last
    };
    (0..count).map(&mut next).collect()
}

fn may_begin_at_0(random: &mut Seeded, numbers: &mut [u32]) {
    if let (Some(first), true) = (numbers.first_mut(), random.chance(1, 4)) {
        *first = 0;
    }
}
