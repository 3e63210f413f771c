//! The waiting table.

use crate::contents::{find, Row};
use crate::label::{started_from, Label, List};

/// What the waits call gives. A refusal has its number, and all figures are 0.
#[derive(Clone, Copy, Debug, Default, PartialEq, Eq)]
pub struct Waits {
    pub refusal: u32,
    pub calls: u64,
    pub boarded: u64,
    pub cancelled: u64,
    pub open: u64,
    pub total: u64,
    pub longest: u64,
    /// Boarded plus cancelled, which the total is divided by for the mean.
    pub over: u64,
}

impl Waits {
    pub(crate) fn refused(refusal: u32) -> Waits {
        Waits { refusal, ..Waits::default() }
    }
}

/// The waiting table of a lawful index, or the number for which the times are refused.
pub fn table(rows: &[Row], times: &[u32]) -> Result<Waits, u32> {
    if rows.iter().any(|row| lacks_an_entry(row.list, times)) {
        return Err(20);
    }
    if !times.is_sorted() {
        return Err(21);
    }
    let [calls, boards, cancels] = ["call", "board", "cancel"].map(|name| find(rows, name.as_bytes()).unwrap_or_default());
    Ok(waited(calls, Kind { list: boards, place: 0 }, Kind { list: cancels, place: 0 }, times))
}

/// Whether a number of the list has no entry in the times. A label's end is the greater of its numbers.
fn lacks_an_entry(list: List, times: &[u32]) -> bool {
    list.iter().any(|label| Label::read(label).end as usize >= times.len())
}

/// A list of boardings or of cancellations, and a place in it that only moves on.
struct Kind<'a> {
    list: List<'a>,
    place: usize,
}

impl Kind<'_> {
    /// The start of the first label inside the call, or the call's end if none is inside. No earlier call may start after this one.
    ///
    /// What starts between the start and the end of another lies inside it, since no two labels of a lawful index cross.
    fn first_inside(&mut self, call: Label) -> u32 {
        self.place = started_from(self.list, self.place, call.start);
        self.list.get(self.place).map_or(call.end, |label| Label::read(label).start.min(call.end))
    }
}

/// Goes through the calls in their order, with nothing stored for any of them.
fn waited(calls: List, mut boards: Kind, mut cancels: Kind, times: &[u32]) -> Waits {
    let mut waits = Waits { calls: calls.len() as u64, ..Waits::default() };
    for call in calls.iter().map(Label::read) {
        let (board, cancel) = (boards.first_inside(call), cancels.first_inside(call));
        if board < cancel {
            waits.boarded += 1;
        } else if cancel < call.end {
            waits.cancelled += 1;
        } else {
            waits.open += 1;
            continue;
        }
        let wait = u64::from(times[board.min(cancel) as usize] - times[call.start as usize]);
        waits.total += wait;
        waits.longest = waits.longest.max(wait);
    }
    waits.over = waits.boarded + waits.cancelled;
    waits
}
