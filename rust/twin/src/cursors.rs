//! One cursor for each step, and how they move. No cursor ever moves back.

use crate::label::{started_from, Label, List};

/// A step with its list found.
pub struct Step<'a> {
    pub list: List<'a>,
    /// The number of the step that it hangs from.
    pub hangs: Option<usize>,
}

pub struct Cursors<'a> {
    steps: &'a [Step<'a>],
    /// The position of each step's cursor in its list.
    pub at: Vec<u32>,
}

impl<'a> Cursors<'a> {
    /// Cursors at the beginning of each list, but that of the returned step, which is at the page's place.
    pub fn new(steps: &'a [Step<'a>], returned: usize, place: u32) -> Cursors<'a> {
        let mut at = vec![0; steps.len()];
        at[returned] = place;
        Cursors { steps, at }
    }

    /// Moves the cursors on to the first pick at or after them, from step `first` on, below which no edge is broken. Says whether there
    /// is one.
    pub fn settle(&mut self, first: usize) -> bool {
        let mut s = first;
        while let Some(step) = self.steps.get(s) {
            let Some(here) = step.list.get(self.at[s] as usize) else { return false };
            let Some(u) = step.hangs else {
                s += 1;
                continue;
            };
            let start = Label::read(here).start;
            let over = Label::read(&self.steps[u].list[self.at[u] as usize]);
            if start <= over.start {
                self.at[s] = started_from(step.list, self.at[s] as usize + 1, over.start) as u32;
            } else if over.end < start {
                self.at[u] += 1;
                s = u;
            } else {
                s += 1;
            }
        }
        true
    }
}
