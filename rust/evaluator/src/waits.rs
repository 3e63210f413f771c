//! The waiting table, by trying all boardings and cancellations for each call.

use crate::index::{Index, Label};

/// What the waits call gives: its refusal or 0, and the figures, which are all 0 on a refusal.
#[derive(Clone, Copy, Debug, Default, PartialEq, Eq)]
pub struct Waits {
    pub refusal: u32,
    pub calls: u64,
    pub boarded: u64,
    pub cancelled: u64,
    pub open: u64,
    /// The waits of the boarded and the cancelled calls together.
    pub total: u64,
    /// The longest of them, or 0 if there is none.
    pub longest: u64,
    /// Boarded plus cancelled: the mean is the total over this.
    pub over: u64,
}

impl Waits {
    /// The eight numbers in the order in which the library gives them.
    pub fn numbers(self) -> [u64; 8] {
        let Waits { refusal, calls, boarded, cancelled, open, total, longest, over } = self;
        [u64::from(refusal), calls, boarded, cancelled, open, total, longest, over]
    }
}

/// What the record that starts first inside a call makes of it.
#[derive(Clone, Copy, Debug, PartialEq, Eq)]
pub enum Made {
    Boarded,
    Cancelled,
}

/// A call, and the boarding or cancellation inside it that starts first, if there is one.
#[derive(Clone, Copy, Debug, PartialEq, Eq)]
pub struct Call {
    pub label: Label,
    pub first: Option<(Made, Label)>,
}

/// The waiting table of an index and a list of times.
pub fn waits(index: &[u8], times: &[u32]) -> Waits {
    match calls(index, times) {
        Ok(calls) => figures(&calls, times),
        Err(refusal) => Waits { refusal, ..Waits::default() },
    }
}

/// All calls of the index, or the first refusal: 1 to 6 of the index, then 20, then 21.
pub fn calls(index: &[u8], times: &[u32]) -> Result<Vec<Call>, u32> {
    let index = Index::read(index)?;
    let has_entry = |number: u32| (number as usize) < times.len();
    if !index.labels().iter().all(|label| has_entry(label.start) && has_entry(label.end)) {
        return Err(20);
    }
    if (1..times.len()).any(|entry| times[entry] < times[entry - 1]) {
        return Err(21);
    }
    // Missing rows count as empty.
    let [calls, boards, cancels] = ["call", "board", "cancel"].map(|name| index.list(name.as_bytes()).unwrap_or_default());
    Ok(calls.into_iter().map(|label| Call { label, first: first_inside(label, &boards, &cancels) }).collect())
}

/// Of all boardings and cancellations inside the call the one that starts first.
fn first_inside(call: Label, boards: &[Label], cancels: &[Label]) -> Option<(Made, Label)> {
    let boards = boards.iter().map(|label| (Made::Boarded, *label));
    let cancels = cancels.iter().map(|label| (Made::Cancelled, *label));
    boards.chain(cancels).filter(|(_, label)| label.inside(call)).min_by_key(|(_, label)| label.start)
}

/// Each figure by itself, but for what the mean is over, which is boarded plus cancelled.
fn figures(calls: &[Call], times: &[u32]) -> Waits {
    let made = |what: Option<Made>| calls.iter().filter(|call| call.first.map(|(made, _)| made) == what).count() as u64;
    let (boarded, cancelled, open) = (made(Some(Made::Boarded)), made(Some(Made::Cancelled)), made(None));
    let waits: Vec<u64> = calls.iter().filter_map(|call| wait(call, times)).collect();
    Waits {
        refusal: 0,
        calls: calls.len() as u64,
        boarded,
        cancelled,
        open,
        total: waits.iter().sum(),
        longest: waits.iter().copied().max().unwrap_or(0),
        over: boarded + cancelled,
    }
}

/// From the call's start to the start of the record that is first inside it. An open call has no wait.
fn wait(call: &Call, times: &[u32]) -> Option<u64> {
    let (_, first) = call.first?;
    Some(u64::from(times[first.start as usize]) - u64::from(times[call.label.start as usize]))
}
