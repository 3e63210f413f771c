//! One page of rows.

use crate::cursors::{Cursors, Step};

/// What stands in place of a step where each step's name has a row.
pub const NO_STEP: u32 = 32;

/// What a call says of the page that it wrote. A refusal has its number, 0 rows, no further record, next place 0 and no unknown step.
#[derive(Clone, Copy, Debug, PartialEq, Eq)]
pub struct Page {
    pub refusal: u32,
    pub rows: usize,
    pub more: bool,
    pub next: u32,
    /// The first step whose name has no row in the index, or [`NO_STEP`].
    pub unknown: u32,
}

impl Page {
    pub(crate) fn refused(refusal: u32) -> Page {
        Page { refusal, rows: 0, more: false, next: 0, unknown: NO_STEP }
    }
}

/// Of which steps a row has the positions.
#[derive(Clone, Copy)]
pub enum Shown {
    Returned,
    All,
}

/// Writes a page from `place` on. Whoever looked the names up puts in which is unknown.
pub fn write_page(steps: &[Step], returned: usize, place: u32, shown: Shown, out: &mut [u32]) -> Page {
    let shown = match shown {
        Shown::Returned => returned..returned + 1,
        Shown::All => 0..steps.len(),
    };
    let mut cursors = Cursors::new(steps, returned, place);
    let mut room = out.chunks_exact_mut(shown.len());
    let mut rows = 0;
    let mut first = 0;
    while cursors.settle(first) {
        let Some(row) = room.next() else {
            return Page { refusal: 0, rows, more: true, next: cursors.at[returned], unknown: NO_STEP };
        };
        row.copy_from_slice(&cursors.at[shown.clone()]);
        rows += 1;
        cursors.at[returned] += 1;
        first = returned;
    }
    Page { refusal: 0, rows, more: false, next: steps[returned].list.len() as u32, unknown: NO_STEP }
}
