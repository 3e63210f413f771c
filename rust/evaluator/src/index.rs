//! The day index and the refusals 1 to 6.

use crate::name::is_name;

const MOST_TAGS: u64 = 256;
const MOST_LABELS: u64 = 1_048_576;
const DEEPEST_NESTING: usize = 64;

/// The numbers of one record.
#[derive(Clone, Copy, Debug, PartialEq, Eq)]
pub struct Label {
    pub start: u32,
    pub end: u32,
}

impl Label {
    /// a lies inside b when b starts before a and a ends before b.
    pub fn inside(self, other: Label) -> bool {
        other.start < self.start && self.end < other.end
    }

    /// One of the two ends before the other starts.
    fn apart(self, other: Label) -> bool {
        self.end < other.start || other.end < self.start
    }

    fn shares_a_number(self, other: Label) -> bool {
        self.start == other.start || self.start == other.end || self.end == other.start || self.end == other.end
    }
}

/// A lawful day index: each tag's name and its records.
pub struct Index {
    tags: Vec<(Vec<u8>, Vec<Label>)>,
}

impl Index {
    /// The index, or the first refusal of the table that applies to it.
    pub fn read(bytes: &[u8]) -> Result<Index, u32> {
        if bytes.len() < 4 {
            return Err(1);
        }
        if number(&bytes[2..4]) != 1 {
            return Err(2);
        }
        let Some(rows) = read_contents(bytes) else {
            return Err(3);
        };
        if bytes.len() as u64 != 4 + 24 * rows.len() as u64 + 8 * labels_in(&rows) {
            return Err(4);
        }
        let index = Index { tags: rows.into_iter().map(|row| (row.name, read_body(bytes, row.offset, row.labels))).collect() };
        if !index.tags.iter().all(|(_, list)| is_lawful_list(list)) {
            return Err(5);
        }
        if !are_lawful_together(&index.labels()) {
            return Err(6);
        }
        Ok(index)
    }

    /// The records of a tag, of which there may be none, or nothing for a name without a row.
    pub fn list(&self, name: &[u8]) -> Option<Vec<Label>> {
        let (_, list) = self.tags.iter().find(|(tag, _)| tag == name)?;
        Some(list.clone())
    }

    /// All labels of the whole index.
    pub fn labels(&self) -> Vec<Label> {
        self.tags.iter().flat_map(|(_, list)| list.clone()).collect()
    }
}

/// A little endian number.
fn number(bytes: &[u8]) -> u64 {
    bytes.iter().rev().fold(0, |number, byte| 256 * number + u64::from(*byte))
}

/// A row of the table of contents.
struct Row {
    name: Vec<u8>,
    offset: u64,
    labels: u64,
}

fn labels_in(rows: &[Row]) -> u64 {
    rows.iter().map(|row| row.labels).sum()
}

/// The table of contents, unless refusal 3 applies.
fn read_contents(bytes: &[u8]) -> Option<Vec<Row>> {
    let tags = number(&bytes[0..2]);
    if tags > MOST_TAGS || (bytes.len() as u64) < 4 + 24 * tags {
        return None;
    }
    let rows: Vec<Row> = bytes[4..].chunks_exact(24).take(tags as usize).map(read_row).collect::<Option<_>>()?;
    let names_ascend = rows.windows(2).all(|pair| pair[0].name < pair[1].name);
    // Bodies follow in row order without gaps, the first at 4 + 24 × T.
    let offsets_are_right = (0..rows.len()).all(|row| rows[row].offset == 4 + 24 * tags + 8 * labels_in(&rows[..row]));
    (names_ascend && offsets_are_right && labels_in(&rows) <= MOST_LABELS).then_some(rows)
}

/// A row of 24 bytes, unless its name is wrong. After the name's first zero byte all are zero.
fn read_row(bytes: &[u8]) -> Option<Row> {
    let length = bytes[..16].iter().position(|byte| *byte == 0).unwrap_or(16);
    let (name, filling) = bytes[..16].split_at(length);
    if !is_name(name) || filling.iter().any(|byte| *byte != 0) {
        return None;
    }
    Some(Row { name: name.to_vec(), offset: number(&bytes[16..20]), labels: number(&bytes[20..24]) })
}

/// A body is its labels, 8 bytes each: start, then end.
fn read_body(bytes: &[u8], offset: u64, labels: u64) -> Vec<Label> {
    let body = &bytes[offset as usize..][..8 * labels as usize];
    body.chunks_exact(8).map(|label| Label { start: number(&label[..4]) as u32, end: number(&label[4..]) as u32 }).collect()
}

/// Whether refusal 5 does not apply: start < end in each label, and the list ascends strictly by start.
fn is_lawful_list(list: &[Label]) -> bool {
    list.iter().all(|label| label.start < label.end) && list.windows(2).all(|pair| pair[0].start < pair[1].start)
}

/// Whether refusal 6 does not apply: any two labels have four different numbers and are either one inside the other or apart, and no 65
/// labels lie each inside the one before.
fn are_lawful_together(labels: &[Label]) -> bool {
    let any_two_are_lawful = labels.iter().enumerate().all(|(place, a)| labels[place + 1..].iter().all(|b| are_lawful_two(*a, *b)));
    any_two_are_lawful && labels.iter().all(|label| nesting_down_to(*label, labels) <= DEEPEST_NESTING)
}

fn are_lawful_two(a: Label, b: Label) -> bool {
    !a.shares_a_number(b) && (a.inside(b) || b.inside(a) || a.apart(b))
}

/// How many labels lie each inside the one before, the given one last. Two labels around the same one are not apart, so that one of them
/// is inside the other once any two are lawful: all labels around this one form one such row, and counting them is enough.
fn nesting_down_to(label: Label, labels: &[Label]) -> usize {
    1 + labels.iter().filter(|other| label.inside(**other)).count()
}
