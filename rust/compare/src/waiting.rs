//! Whether a library's waiting table is what the evaluator gives, and what kinds of tables there are.

use crate::waiting_cases::WaitingCase;
use crate::Tally;
use days::Day;
use evaluator::{Call, Made, Waits};

/// Compares one waiting table, every figure of it, with the evaluator's.
pub fn compare_waits(library: impl Fn(&[u8], &[u32]) -> Waits, case: &WaitingCase, expected: Waits) -> Result<(), String> {
    let given = library(&case.index, &case.times);
    if expected != given {
        return Err(format!("waits: expected {expected:?}, given {given:?}\n{case}"));
    }
    Ok(())
}

/// A case that is refused for its times.
pub struct Refused<'a> {
    number: u32,
    day: &'a Day,
    times: &'a [u32],
}

/// A case that is not refused.
pub struct Table<'a> {
    waits: Waits,
    calls: &'a [Call],
    day: &'a Day,
    times: &'a [u32],
}

/// A kind of such cases: what it is called, and whether a case is of it.
pub type KindOfRefused = (&'static str, fn(&Refused) -> bool);
pub type KindOfTable = (&'static str, fn(&Table) -> bool);

/// What there can be among the refusals 20 and 21.
pub const KINDS_OF_REFUSED_TIMES: [KindOfRefused; 8] = [
    ("20, one entry too few", |seen| seen.number == 20 && seen.times.len() + 1 == seen.day.entries_needed()),
    ("20, no entries", |seen| seen.number == 20 && seen.times.is_empty()),
    ("20 for a number of another tag alone", |seen| seen.number == 20 && seen.times.len() >= needed_by_the_three(seen.day)),
    ("20 where 21 applies as well", |seen| seen.number == 20 && !seen.times.is_sorted()),
    ("21, the first entry alone is too great", |seen| seen.number == 21 && seen.times[1..].is_sorted()),
    ("21, the last in use alone is too small", |seen| {
        let last = seen.day.entries_needed().saturating_sub(1);
        seen.number == 21 && seen.times[..last].is_sorted() && !seen.times[..=last].is_sorted()
    }),
    ("21, past the numbers in use alone", |seen| seen.number == 21 && seen.times[..seen.day.entries_needed()].is_sorted()),
    ("21, no records", |seen| seen.number == 21 && seen.day.records() == 0),
];

/// What there can be among the tables.
pub const KINDS_OF_TABLES: [KindOfTable; 17] = [
    ("boarded, cancelled and open calls", |seen| seen.waits.boarded > 0 && seen.waits.cancelled > 0 && seen.waits.open > 0),
    ("a cancelled call with a boarded one inside", |seen| seen.has_inside(Some(Made::Cancelled), Some(Made::Boarded))),
    ("a boarded call with a cancelled one inside", |seen| seen.has_inside(Some(Made::Boarded), Some(Made::Cancelled))),
    ("a boarded call with an open one inside", |seen| seen.has_inside(Some(Made::Boarded), None)),
    ("a call whose first record lies in a call inside", |seen| seen.has_a_shared_record()),
    ("a total of over 32 bits", |seen| seen.waits.total > u64::from(u32::MAX)),
    ("a longest wait of 4,294,967,295", |seen| seen.waits.longest == u64::from(u32::MAX)),
    ("a longest wait of 0, though somebody boarded", |seen| seen.waits.longest == 0 && seen.waits.boarded > 0),
    ("calls, all of them open", |seen| seen.waits.open > 0 && seen.waits.over == 0),
    ("calls and no row of boardings", |seen| seen.waits.calls > 0 && !seen.has_row("board")),
    ("calls and no row of cancellations", |seen| seen.waits.calls > 0 && !seen.has_row("cancel")),
    ("no row of calls", |seen| !seen.has_row("call")),
    ("a row without records", |seen| seen.day.lists.values().any(Vec::is_empty)),
    ("exactly as many entries as are needed", |seen| seen.times.len() == seen.day.entries_needed()),
    ("more entries than are needed", |seen| seen.times.len() > seen.day.entries_needed()),
    ("equal entries", |seen| seen.times.windows(2).any(|pair| pair[0] == pair[1])),
    ("0 and 4,294,967,295 among the entries", |seen| seen.times.contains(&0) && seen.times.contains(&u32::MAX)),
];

impl Table<'_> {
    fn has_row(&self, name: &str) -> bool {
        self.day.lists.contains_key(name.as_bytes())
    }

    /// Whether a call of which the one thing became has a call inside of which the other did.
    fn has_inside(&self, outer: Option<Made>, inner: Option<Made>) -> bool {
        let are = |became: Option<Made>| self.calls.iter().filter(move |call| call.first.map(|(made, _)| made) == became);
        are(outer).any(|outer| are(inner).any(|inner| inner.label.inside(outer.label)))
    }

    /// Whether the record that is first inside a call lies in a call inside that one.
    fn has_a_shared_record(&self) -> bool {
        let shared = |outer: &Call, first| self.calls.iter().any(|inner| inner.label.inside(outer.label) && inner.first == Some(first));
        self.calls.iter().any(|call| call.first.is_some_and(|first| shared(call, first)))
    }
}

/// How many entries the calls, boardings and cancellations need.
fn needed_by_the_three(day: &Day) -> usize {
    let mut three = day.clone();
    three.lists.retain(|name, _| [b"call".as_slice(), b"board", b"cancel"].contains(&name.as_slice()));
    three.entries_needed()
}

/// Counts the refusal of a case, and of which kinds it is.
pub fn count_waits(tally: &mut Tally, case: &WaitingCase, waits: Waits) {
    tally.count(&format!("refusal {}", waits.refusal), true);
    let Some(day) = &case.day else {
        return;
    };
    let times = case.times.as_slice();
    match evaluator::calls(&case.index, times) {
        Ok(calls) => {
            let table = Table { waits, calls: &calls, day, times };
            KINDS_OF_TABLES.iter().for_each(|(kind, is_so)| tally.count(kind, is_so(&table)));
        }
        Err(number @ (20 | 21)) => {
            let refused = Refused { number, day, times };
            KINDS_OF_REFUSED_TIMES.iter().for_each(|(kind, is_so)| tally.count(kind, is_so(&refused)));
        }
        Err(_) => (),
    }
}
