//! Ways to make a waiting table from the lists of an index: the right one, in parts that can be made wrong one by one.

use compare::PROVED;
use days::{is_inside, Label};
use evaluator::Waits;
use std::collections::BTreeMap;

/// The lists of a lawful index.
pub struct Lists {
    pub all: BTreeMap<Vec<u8>, Vec<Label>>,
    pub calls: Vec<Label>,
    pub boards: Vec<Label>,
    pub cancels: Vec<Label>,
}

impl Lists {
    fn read(index: &[u8]) -> Lists {
        let number = |place: usize| u32::from_le_bytes([index[place], index[place + 1], index[place + 2], index[place + 3]]);
        let row = |row: usize| {
            let place = 4 + 24 * row;
            let name = index[place..place + 16].iter().copied().take_while(|byte| *byte != 0).collect();
            let (offset, count) = (number(place + 16) as usize, number(place + 20) as usize);
            let labels = (0..count).map(|label| offset + 8 * label).map(|place| (number(place), number(place + 4))).collect();
            (name, labels)
        };
        let rows = usize::from(u16::from_le_bytes([index[0], index[1]]));
        let all: BTreeMap<Vec<u8>, Vec<Label>> = (0..rows).map(row).collect();
        let [calls, boards, cancels] = ["call", "board", "cancel"].map(|name| all.get(name.as_bytes()).cloned().unwrap_or_default());
        Lists { all, calls, boards, cancels }
    }
}

/// What becomes of a call, by the record that is taken.
#[derive(Clone, Copy)]
pub enum Became {
    Boarded(Label),
    Cancelled(Label),
    Open,
}

/// A way to make a waiting table, with one function for each part of it.
#[derive(Clone, Copy)]
pub struct Way {
    /// Why the times are refused, 20 or 21, or 0.
    pub refusal: fn(&Lists, &[u32]) -> u32,
    /// What is given on such a refusal, of which the figures are known as well.
    pub on_refusal: fn(u32, Waits) -> Waits,
    /// Whether the call is counted.
    pub counts: fn(&Lists, Label) -> bool,
    /// What becomes of it.
    pub became: fn(&Lists, Label) -> Became,
    /// The wait from the call to the record.
    pub wait: fn(&[u32], Label, Label) -> u64,
    /// Whether the wait is one of the total.
    pub adds: fn(Became) -> bool,
    /// What the figures are at last.
    pub at_last: fn(Waits) -> Waits,
}

pub const RIGHT: Way = Way {
    refusal: |lists, times| first_of(lacks(lists.all.values().flatten(), times), descends(times)),
    on_refusal: |refusal, _| Waits { refusal, ..Waits::default() },
    counts: |_, _| true,
    became: |lists, call| {
        earlier(first(&lists.boards, |label| is_inside(label, call)), first(&lists.cancels, |label| is_inside(label, call)))
    },
    wait: |times, call, record| between(times, call.0, record.0),
    adds: |_| true,
    at_last: |waits| waits,
};

/// The refusal, if 20 applies or not and 21 does or not.
pub fn first_of(lacks_an_entry: bool, descends: bool) -> u32 {
    match (lacks_an_entry, descends) {
        (true, _) => 20,
        (false, true) => 21,
        (false, false) => 0,
    }
}

/// Whether a number of the labels has no entry.
pub fn lacks<'a>(labels: impl IntoIterator<Item = &'a Label>, times: &[u32]) -> bool {
    labels.into_iter().any(|label| label.1 as usize >= times.len())
}

pub fn descends(times: &[u32]) -> bool {
    times.windows(2).any(|pair| pair[1] < pair[0])
}

/// The first label of a list that may be taken.
pub fn first(list: &[Label], may_be_taken: impl Fn(Label) -> bool) -> Option<Label> {
    list.iter().copied().find(|label| may_be_taken(*label))
}

/// The one that starts first.
pub fn earlier(board: Option<Label>, cancel: Option<Label>) -> Became {
    match (board, cancel) {
        (Some(board), Some(cancel)) if cancel.0 < board.0 => Became::Cancelled(cancel),
        (Some(board), _) => Became::Boarded(board),
        (None, Some(cancel)) => Became::Cancelled(cancel),
        (None, None) => Became::Open,
    }
}

/// From the time of the one number to that of the other. What has no entry counts as 0, and so does a wait that ends before it begins: the
/// right way never gets there.
pub fn between(times: &[u32], from: u32, to: u32) -> u64 {
    let time = |number: u32| u64::from(times.get(number as usize).copied().unwrap_or(0));
    time(to).saturating_sub(time(from))
}

impl Way {
    pub fn waits(self, index: &[u8], times: &[u32]) -> Waits {
        match (PROVED.check)(index) {
            0 => self.of_lists(&Lists::read(index), times),
            refusal => Waits { refusal, ..Waits::default() },
        }
    }

    fn of_lists(self, lists: &Lists, times: &[u32]) -> Waits {
        let mut waits = Waits::default();
        for call in lists.calls.iter().copied().filter(|call| (self.counts)(lists, *call)) {
            self.add(&mut waits, times, call, (self.became)(lists, call));
        }
        waits.over = waits.boarded + waits.cancelled;
        match (self.refusal)(lists, times) {
            0 => (self.at_last)(waits),
            refusal => (self.on_refusal)(refusal, waits),
        }
    }

    fn add(self, waits: &mut Waits, times: &[u32], call: Label, became: Became) {
        waits.calls += 1;
        let (count, record) = match became {
            Became::Boarded(record) => (&mut waits.boarded, Some(record)),
            Became::Cancelled(record) => (&mut waits.cancelled, Some(record)),
            Became::Open => (&mut waits.open, None),
        };
        *count += 1;
        if let Some(record) = record.filter(|_| (self.adds)(became)) {
            let wait = (self.wait)(times, call, record);
            waits.total += wait;
            waits.longest = waits.longest.max(wait);
        }
    }
}
