//! The page rule, the same for the answer and the evidence.

/// What stands in place of a step where there is no unknown one.
pub const NO_STEP: u32 = 32;

/// What a call gives beside the numbers in the lent buffer.
#[derive(Clone, Copy, Debug, PartialEq, Eq)]
pub struct Outcome {
    pub refusal: u32,
    pub rows: usize,
    pub more: bool,
    pub next: u32,
    /// The first step whose name has no row, or 32 if there is none.
    pub unknown: u32,
}

impl Outcome {
    /// A refusal has 0 rows, no further record, next place 0 and no unknown step. The lent buffer stays unchanged.
    pub fn refused(refusal: u32) -> Outcome {
        Outcome { refusal, rows: 0, more: false, next: 0, unknown: NO_STEP }
    }
}

/// For each step a list position.
pub type Row = Vec<u32>;

/// All that a question gives.
#[derive(Clone, Debug, PartialEq, Eq)]
pub struct Found {
    /// The evidence of each returned record, in the order of the records.
    pub rows: Vec<Row>,
    /// The number of steps.
    pub steps: usize,
    /// The number of the returned step: a row has its record there.
    pub returned: usize,
    /// The number of labels in the returned step's list.
    pub labels: usize,
    /// The first step whose name has no row.
    pub unknown: Option<usize>,
}

impl Found {
    /// A page of the answer: of each row the returned record.
    pub fn answer(&self, place: u32, buffer: &mut [u32]) -> Outcome {
        self.page(place, buffer, 1, |row| &row[self.returned..=self.returned])
    }

    /// A page of the evidence: of each row the whole.
    pub fn evidence(&self, place: u32, buffer: &mut [u32]) -> Outcome {
        self.page(place, buffer, self.steps, |row| row)
    }

    fn page(&self, place: u32, buffer: &mut [u32], width: usize, written_part: impl Fn(&[u32]) -> &[u32]) -> Outcome {
        let room = buffer.len() / width;
        let records: Vec<&Row> = self.rows.iter().filter(|row| row[self.returned] >= place).collect();
        let rows = room.min(records.len());
        for (row, part) in records[..rows].iter().zip(buffer.chunks_exact_mut(width)) {
            part.copy_from_slice(written_part(row));
        }
        let (more, next) = match records.get(rows) {
            Some(first_not_written) => (true, first_not_written[self.returned]),
            None => (false, self.labels as u32),
        };
        Outcome { refusal: 0, rows, more, next, unknown: self.unknown.map_or(NO_STEP, |step| step as u32) }
    }
}
