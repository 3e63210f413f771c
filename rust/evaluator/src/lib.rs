//! What document 01, with the change requests C-16 and C-17 of document 02, says that a question gives and that a waiting table has, found
//! from their words alone.
//!
//! Nothing here is quick or shares anything with the library that it judges. For questions there are two evaluators: the first tries all
//! picks, the second works with sets and so can take larger days and longer questions. For the waiting table there is one.

#![forbid(unsafe_code)]

mod index;
mod name;
mod pages;
mod picks;
mod printed;
mod question;
mod sets;
mod waits;

pub use index::Label;
pub use pages::{Found, Outcome, Row, NO_STEP};
pub use printed::{noted, printed};
pub use waits::{calls, waits, Call, Made, Waits};

use index::Index;
use question::Question;

/// The refusal number of an index, or 0 for a lawful one.
pub fn check(index: &[u8]) -> u32 {
    match Index::read(index) {
        Ok(_) => 0,
        Err(refusal) => refusal,
    }
}

/// How the rows are found.
#[derive(Clone, Copy, Debug, PartialEq, Eq)]
pub enum Way {
    AllPicks,
    Sets,
}

/// A lawful index and an accepted question.
pub struct Asked {
    /// For each step its name.
    names: Vec<Vec<u8>>,
    /// For each step whether the index has a row of that name.
    has_row: Vec<bool>,
    /// For each step the records of its tag. A name without a row has none, and so has one whose number is 0.
    lists: Vec<Vec<Label>>,
    /// For each step the number of the step that it hangs from.
    hangs_from: Vec<Option<usize>>,
    returned: usize,
}

/// The number of a step and the list position of one of its records.
type Record = (usize, u32);

impl Asked {
    /// Reads the index, then the question, and gives the first refusal.
    pub fn read(index: &[u8], question: &[u8]) -> Result<Asked, u32> {
        let index = Index::read(index)?;
        let Question { steps, returned } = Question::read(question)?;
        let lists: Vec<Option<Vec<Label>>> = steps.iter().map(|step| index.list(&step.name)).collect();
        Ok(Asked {
            has_row: lists.iter().map(Option::is_some).collect(),
            lists: lists.into_iter().map(Option::unwrap_or_default).collect(),
            hangs_from: steps.iter().map(|step| step.hangs_from).collect(),
            names: steps.into_iter().map(|step| step.name).collect(),
            returned,
        })
    }

    /// The first step whose name has no row.
    pub fn unknown(&self) -> Option<usize> {
        self.has_row.iter().position(|has_row| !has_row)
    }

    /// Whether some step's name has a row with number 0.
    pub fn has_an_empty_row(&self) -> bool {
        self.has_row.iter().zip(&self.lists).any(|(has_row, list)| *has_row && list.is_empty())
    }

    /// Whether the step stands outside all brackets: it is the returned one, or one on the way up from that one by what hangs from what.
    pub fn is_outside_brackets(&self, step: usize) -> bool {
        std::iter::successors(Some(self.returned), |below| self.hangs_from[*below]).any(|outside| outside == step)
    }

    /// All that the question gives.
    pub fn found(&self, way: Way) -> Found {
        let rows = match way {
            Way::AllPicks => picks::rows(self),
            Way::Sets => sets::rows(self),
        };
        let labels = self.lists[self.returned].len();
        Found { rows, steps: self.lists.len(), returned: self.returned, labels, unknown: self.unknown() }
    }

    /// At most so many beginnings of one length there are to try on the way to all picks.
    pub fn tries(&self) -> u64 {
        self.lists.iter().fold(1, |tries: u64, list| tries.saturating_mul(list.len().max(1) as u64))
    }

    fn inside(&self, (a_step, a): Record, (b_step, b): Record) -> bool {
        self.lists[a_step][a as usize].inside(self.lists[b_step][b as usize])
    }

    /// Whether a pick that gives the earlier steps these records may give the step this one: it has to lie inside the record of the step
    /// that it hangs from, which is an earlier one.
    fn may_pick(&self, step: usize, position: u32, earlier: &[u32]) -> bool {
        match self.hangs_from[step] {
            None => true,
            Some(from) => self.inside((step, position), (from, earlier[from])),
        }
    }
}
