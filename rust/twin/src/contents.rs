//! The table of contents: refusals 1 to 4, and the lists by their names.

use crate::label::{Label, List};
use crate::name;

const HEAD_BYTES: usize = 4;
const ROW_BYTES: usize = 24;
const MOST_TAGS: usize = 256;
const MOST_LABELS: u64 = 1_048_576;

/// A name, filled up with zero bytes.
type Field = [u8; name::MOST_BYTES];

/// A tag of a day: its name and its labels.
pub struct Row<'a> {
    name: Field,
    pub list: List<'a>,
}

/// A row as it stands in the table.
struct Entry {
    name: Field,
    offset: u32,
    count: u32,
}

impl Entry {
    fn read(row: &[u8; ROW_BYTES]) -> Entry {
        let mut name = [0; name::MOST_BYTES];
        name.copy_from_slice(&row[..16]);
        let [offset, count] = [16, 20].map(|at| u32::from_le_bytes([row[at], row[at + 1], row[at + 2], row[at + 3]]));
        Entry { name, offset, count }
    }

    fn has_name(&self) -> bool {
        let (name, rest) = self.name.split_at(name::run(&self.name));
        !name.is_empty() && rest.iter().all(|byte| *byte == 0)
    }
}

/// The rows of the table, or the number of the first reason of 1 to 4 for which the index is refused.
pub fn contents(index: &[u8]) -> Result<Vec<Row<'_>>, u32> {
    let Some(([t0, t1, v0, v1], rest)) = index.split_first_chunk::<HEAD_BYTES>() else { return Err(1) };
    if u16::from_le_bytes([*v0, *v1]) != 1 {
        return Err(2);
    }
    let tags = usize::from(u16::from_le_bytes([*t0, *t1]));
    if tags > MOST_TAGS {
        return Err(3);
    }
    let Some((table, bodies)) = rest.split_at_checked(ROW_BYTES * tags) else { return Err(3) };
    let entries = entries(table)?;
    let labels: u64 = entries.iter().map(|entry| u64::from(entry.count)).sum();
    if labels > MOST_LABELS {
        return Err(3);
    }
    if bodies.len() as u64 != labels * Label::BYTES as u64 {
        return Err(4);
    }
    Ok(rows(&entries, bodies))
}

/// The table's entries, if the name, the order and the offset of each are right.
fn entries(table: &[u8]) -> Result<Vec<Entry>, u32> {
    let (chunks, _) = table.as_chunks::<ROW_BYTES>();
    let mut entries: Vec<Entry> = Vec::with_capacity(chunks.len());
    // Where the next body begins. It may be more than the 32 bits of an offset can say.
    let mut place = (HEAD_BYTES + table.len()) as u64;
    for chunk in chunks {
        let entry = Entry::read(chunk);
        let in_order = entries.last().is_none_or(|last| last.name < entry.name);
        if !entry.has_name() || !in_order || u64::from(entry.offset) != place {
            return Err(3);
        }
        place += u64::from(entry.count) * Label::BYTES as u64;
        entries.push(entry);
    }
    Ok(entries)
}

/// Each entry with its part of the bodies.
fn rows<'a>(entries: &[Entry], bodies: &'a [u8]) -> Vec<Row<'a>> {
    let (mut labels, _) = bodies.as_chunks();
    let mut rows = Vec::with_capacity(entries.len());
    for entry in entries {
        let (list, rest) = labels.split_at(entry.count as usize);
        rows.push(Row { name: entry.name, list });
        labels = rest;
    }
    rows
}

/// The labels of a name of at most 16 bytes, of which there may be none; nothing for a name without a row.
pub fn find<'a>(rows: &[Row<'a>], name: &[u8]) -> Option<List<'a>> {
    let mut field: Field = [0; name::MOST_BYTES];
    field[..name.len()].copy_from_slice(name);
    rows.iter().find(|row| row.name == field).map(|row| row.list)
}
