//! Days, written as day indexes.

/// A tag's name and the numbers of its records.
pub type Tag<'a> = (&'a str, &'a [(u32, u32)]);

/// The index of a day, the tags in the given order.
pub fn day(tags: &[Tag]) -> Vec<u8> {
    let mut bytes = vec![tags.len() as u8, 0, 1, 0];
    let mut offset = 4 + 24 * tags.len();
    for (name, list) in tags {
        bytes.extend(name.bytes());
        bytes.extend(vec![0; 16 - name.len()]);
        bytes.extend((offset as u32).to_le_bytes());
        bytes.extend((list.len() as u32).to_le_bytes());
        offset += 8 * list.len();
    }
    for (start, end) in tags.iter().flat_map(|(_, list)| list.iter()) {
        bytes.extend(start.to_le_bytes());
        bytes.extend(end.to_le_bytes());
    }
    bytes
}

/// The small day of document 01.
pub fn small_day() -> Vec<u8> {
    day(&[("board", &[(8, 9), (22, 23)]), ("call", &[(1, 20), (4, 15), (7, 12), (21, 26), (27, 28)]), ("cancel", &[(2, 3), (5, 6)])])
}
