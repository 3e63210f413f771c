//! Indexes with something wrong in them, or near that: every field can be hit.

use days::Seeded;

/// A damage that leaves the length as it is.
type Change = fn(&mut Seeded, &mut [u8]);

const CHANGES: [Change; 12] = [
    change_the_number_of_tags,
    change_the_version,
    change_a_name,
    exchange_names,
    repeat_a_name,
    change_an_offset,
    change_a_count,
    change_a_count_and_what_follows_from_it,
    change_a_label,
    exchange_numbers_of_labels,
    exchange_labels,
    change_or_exchange_bytes,
];

/// Does one damage. One that finds nothing to hit does nothing.
pub fn damage_index(random: &mut Seeded, index: &mut Vec<u8>) {
    match random.below(2 + CHANGES.len()) {
        0 => end_early(random, index),
        1 => add_at_the_end(random, index),
        _ => random.pick(&CHANGES)(random, index),
    }
}

/// Does one damage to the labels, which are the most of a larger day.
pub fn damage_labels(random: &mut Seeded, index: &mut [u8]) {
    let change: Change = *random.pick(&[change_a_label, exchange_numbers_of_labels, exchange_labels]);
    change(random, index);
}

const HEAD: usize = 4;
const ROW: usize = 24;
const NAME: usize = 16;
const LABEL: usize = 8;

/// How many rows there are in fact, whatever the index says of it.
fn rows(index: &[u8]) -> usize {
    match index {
        [low, high, _, _, rest @ ..] => (rest.len() / ROW).min(usize::from(u16::from_le_bytes([*low, *high]))),
        _ => 0,
    }
}

/// Where any one of the rows begins.
fn any_row(random: &mut Seeded, index: &[u8]) -> Option<usize> {
    let rows = rows(index);
    (rows > 0).then(|| HEAD + ROW * random.below(rows))
}

/// Where any one of the labels' numbers stands, starts and ends alike.
fn any_number(random: &mut Seeded, index: &[u8]) -> Option<usize> {
    let first = HEAD + ROW * rows(index);
    let numbers = index.len().saturating_sub(first) / 4;
    (numbers > 0).then(|| first + 4 * random.below(numbers))
}

fn number(index: &[u8], place: usize) -> u32 {
    u32::from_le_bytes([index[place], index[place + 1], index[place + 2], index[place + 3]])
}

fn set_number(index: &mut [u8], place: usize, number: u32) {
    index[place..place + 4].copy_from_slice(&number.to_le_bytes());
}

/// A number near the given one, or far off.
fn another(random: &mut Seeded, number: u32) -> u32 {
    match random.below(8) {
        0 | 1 => number.wrapping_add(1),
        2 | 3 => number.wrapping_sub(1),
        4 => number.wrapping_add(8),
        5 => 0,
        6 => u32::MAX,
        _ => random.number() as u32,
    }
}

fn exchange(index: &mut [u8], first: usize, second: usize, length: usize) {
    for byte in 0..length {
        index.swap(first + byte, second + byte);
    }
}

fn change_the_number_of_tags(random: &mut Seeded, index: &mut [u8]) {
    if let [low, high, ..] = index {
        let tags = u16::from_le_bytes([*low, *high]);
        [*low, *high] = random.pick(&[tags.wrapping_add(1), tags.wrapping_sub(1), 0, 256, 257, tags ^ 256, u16::MAX]).to_le_bytes();
    }
}

fn change_the_version(random: &mut Seeded, index: &mut [u8]) {
    if let [_, _, low, high, ..] = index {
        [*low, *high] = random.pick(&[0u16, 2, 256, 257, 0x8001, u16::MAX]).to_le_bytes();
    }
}

/// Any byte of a name: the first, one in the middle, or one of the zero bytes.
fn change_a_name(random: &mut Seeded, index: &mut [u8]) {
    if let Some(row) = any_row(random, index) {
        let place = if random.chance(1, 4) { row } else { row + random.below(NAME) };
        index[place] = *random.pick(b"\x00\x00/09:@AZ[_`az{-. \x7f\x80\xff");
    }
}

fn exchange_names(random: &mut Seeded, index: &mut [u8]) {
    if let (Some(one), Some(other)) = (any_row(random, index), any_row(random, index)) {
        exchange(index, one, other, NAME);
    }
}

fn repeat_a_name(random: &mut Seeded, index: &mut [u8]) {
    if let (Some(one), Some(other)) = (any_row(random, index), any_row(random, index)) {
        index.copy_within(one..one + NAME, other);
    }
}

fn change_an_offset(random: &mut Seeded, index: &mut [u8]) {
    if let Some(row) = any_row(random, index) {
        let offset = another(random, number(index, row + NAME));
        set_number(index, row + NAME, offset);
    }
}

fn change_a_count(random: &mut Seeded, index: &mut [u8]) {
    if let Some(row) = any_row(random, index) {
        let place = row + NAME + 4;
        let count = number(index, place);
        let near_the_limit = 1_048_573 + random.below(6) as u32;
        let changed = if random.chance(1, 3) { near_the_limit } else { another(random, count) };
        set_number(index, place, changed);
    }
}

/// All offsets are made to fit the counts again, so that only the sum of the counts and the length can be wrong, or the lists.
fn change_a_count_and_what_follows_from_it(random: &mut Seeded, index: &mut [u8]) {
    change_a_count(random, index);
    let mut offset = (HEAD + ROW * rows(index)) as u32;
    for row in (HEAD..).step_by(ROW).take(rows(index)) {
        set_number(index, row + NAME, offset);
        offset = offset.wrapping_add(number(index, row + NAME + 4).wrapping_mul(LABEL as u32));
    }
}

/// A start or an end becomes another number, or the same as another start or end.
fn change_a_label(random: &mut Seeded, index: &mut [u8]) {
    if let (Some(one), Some(other)) = (any_number(random, index), any_number(random, index)) {
        let changed = if random.chance(1, 2) { number(index, other) } else { another(random, number(index, one)) };
        set_number(index, one, changed);
    }
}

/// Two numbers change places: a label's own ones, which then starts after its end, or those of two, which may then cross.
fn exchange_numbers_of_labels(random: &mut Seeded, index: &mut [u8]) {
    if let (Some(one), Some(other)) = (any_number(random, index), any_number(random, index)) {
        exchange(index, one, other, 4);
    }
}

/// Two labels change places, in one list or between two.
fn exchange_labels(random: &mut Seeded, index: &mut [u8]) {
    if let (Some(one), Some(other)) = (any_number(random, index), any_number(random, index)) {
        let label_of = |number: usize, index: &[u8]| number - (number - HEAD - ROW * rows(index)) % LABEL;
        let (one, other) = (label_of(one, index), label_of(other, index));
        if one.max(other) + LABEL <= index.len() {
            exchange(index, one, other, LABEL);
        }
    }
}

fn end_early(random: &mut Seeded, index: &mut Vec<u8>) {
    let length = if random.chance(1, 3) { random.below(6) } else { random.below(index.len() + 1) };
    index.truncate(length);
}

fn add_at_the_end(random: &mut Seeded, index: &mut Vec<u8>) {
    let addition = *random.pick(&[1, 4, 7, 8, 9, 16, 24]);
    index.extend((0..addition).map(|_| random.below(256) as u8));
}

fn change_or_exchange_bytes(random: &mut Seeded, index: &mut [u8]) {
    if index.is_empty() {
        return;
    }
    let (one, other) = (random.below(index.len()), random.below(index.len()));
    match random.below(3) {
        0 => index[one] = random.below(256) as u8,
        1 => index[one] ^= 1 << random.below(8),
        _ => index.swap(one, other),
    }
}
