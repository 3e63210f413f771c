//! Labels and the lists that they stand in.

/// A body of the index: its labels, 8 bytes each.
pub type List<'a> = &'a [[u8; Label::BYTES]];

/// The numbers at which a record starts and ends.
#[derive(Clone, Copy)]
pub struct Label {
    pub start: u32,
    pub end: u32,
}

impl Label {
    pub const BYTES: usize = 8;

    pub fn read(bytes: &[u8; Label::BYTES]) -> Label {
        let [a, b, c, d, e, f, g, h] = *bytes;
        Label { start: u32::from_le_bytes([a, b, c, d]), end: u32::from_le_bytes([e, f, g, h]) }
    }
}

/// How many labels of the list start at or before `number`, where the first `from` do. The next label is looked at first, then one as
/// far again from there each time; what lies between the last two is halved.
pub fn started_from(list: List, from: usize, number: u32) -> usize {
    let starts_by = |label: &[u8; Label::BYTES]| Label::read(label).start <= number;
    let rest = &list[from..];
    let (mut low, mut high) = (0, 0);
    while rest.get(high).is_some_and(starts_by) {
        low = high + 1;
        high += low;
    }
    from + low + rest[low..high.min(rest.len())].partition_point(starts_by)
}

#[cfg(test)]
mod tests {
    use super::started_from;

    /// Lists of all lengths below 40 with starts 1, 3, 5 and so on, of which so many are at most a number as half of it, rounded up.
    #[test]
    fn finds_the_number_from_every_place_before_it() {
        for length in 0..40 {
            let list: Vec<[u8; 8]> = (0..length).map(|i| (u64::from(2 * i + 1) | u64::from(2 * i + 2) << 32).to_le_bytes()).collect();
            for number in 0..=2 * length {
                let started = (number as usize).div_ceil(2);
                for from in 0..=started {
                    assert_eq!(started_from(&list, from, number), started, "{length} labels, {number} from {from}");
                }
            }
        }
    }
}
