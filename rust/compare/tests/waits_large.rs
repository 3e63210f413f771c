//! The waiting table of days as large as the limits allow, where the evaluator takes too long: the library agrees with the twin in every
//! figure, and with a table that is made from the evidence of two questions.

use compare::{PROVED, TWIN, WRAPPED};
use days::{apart_day, halves_day, lift_day, nested_day, rising_times, Day, Label};
use evaluator::Waits;

const MOST_LABELS: usize = 1_048_576;
const MOST_NESTED: usize = 64;

/// The table that the library as C and as Rust calls it and the twin agree on.
fn agreed(index: &[u8], times: &[u32]) -> Waits {
    let waits = (PROVED.waits)(index, times);
    assert_eq!(waits, (WRAPPED.waits)(index, times));
    assert_eq!(waits, (TWIN.waits)(index, times));
    waits
}

/// For each call the start of the first record of that name inside it, if there is one: the evidence of a question has it.
fn first_inside(day: &Day, index: &[u8], name: &str) -> Vec<Option<u32>> {
    let list = |name: &str| day.lists.get(name.as_bytes()).map_or([].as_slice(), Vec::as_slice);
    let (calls, records): (&[Label], &[Label]) = (list("call"), list(name));
    let mut starts = vec![None; calls.len()];
    for page in roadthrum::evidence_pages(index, format!("//call[//{name}]").as_bytes(), MOST_LABELS) {
        for row in &page.expect("the day is lawful") {
            starts[row[0] as usize] = Some(records[row[1] as usize].0);
        }
    }
    starts
}

/// The table, made from what the evidence says of each call.
fn by_evidence(day: &Day, index: &[u8], times: &[u32]) -> Waits {
    let calls = &day.lists[b"call".as_slice()];
    let firsts = first_inside(day, index, "board").into_iter().zip(first_inside(day, index, "cancel"));
    let mut waits = Waits { calls: calls.len() as u64, ..Waits::default() };
    for (call, (board, cancel)) in calls.iter().zip(firsts) {
        let Some(first) = board.into_iter().chain(cancel).min() else {
            waits.open += 1;
            continue;
        };
        if board == Some(first) {
            waits.boarded += 1;
        } else {
            waits.cancelled += 1;
        }
        let wait = u64::from(times[first as usize]) - u64::from(times[call.0 as usize]);
        waits.total += wait;
        waits.longest = waits.longest.max(wait);
        waits.over += 1;
    }
    waits
}

/// Puts a day with times that rise, with times that are all the same, and with times that are refused. Gives the table of the first.
fn put(day: &Day, seed: u64) -> Waits {
    let index = day.to_bytes();
    let times = rising_times(seed, day.entries_needed());
    let waits = agreed(&index, &times);
    assert_eq!(waits, by_evidence(day, &index, &times));
    assert_eq!(agreed(&index, &vec![u32::MAX; times.len()]), Waits { total: 0, longest: 0, ..waits });
    put_refused(&index, &times);
    waits
}

/// Times that are too few or descend, in the middle, at the end and past the numbers in use.
fn put_refused(index: &[u8], times: &[u32]) {
    let refused = |times: &[u32], refusal| assert_eq!(agreed(index, times), Waits { refusal, ..Waits::default() });
    refused(&times[..times.len() - 1], 20);
    refused(&[], 20);
    for place in [times.len() / 2, times.len() - 1] {
        let mut descending = times.to_vec();
        descending[place - 1] = descending[place - 1].max(1);
        descending[place] = descending[place - 1] - 1;
        refused(&descending, 21);
        refused(&descending[..times.len() - 1], 20);
    }
    refused(&[times, &[u32::MAX, 0]].concat(), 21);
}

#[test]
fn lift_days_of_the_most_labels() {
    for (seed, records) in [(1, MOST_LABELS), (2, 77_777)] {
        let waits = put(&lift_day(seed, records), seed);
        for figure in [waits.boarded, waits.cancelled, waits.open] {
            assert!(figure as usize > records / 100, "{waits:?}");
        }
        assert_eq!(waits.boarded + waits.cancelled + waits.open, waits.calls);
        assert!(waits.total > u64::from(u32::MAX) / 100 && waits.longest > 0, "{waits:?}");
    }
}

#[test]
fn nested_days_of_the_most_labels() {
    let day = nested_day(3, MOST_LABELS, 3, MOST_NESTED).renamed(&["call", "board", "cancel"]);
    let waits = put(&day, 3);
    assert!(waits.boarded > 0 && waits.cancelled > 0 && waits.open > 0, "{waits:?}");
    // Calls alone, of which all are open.
    let calls = nested_day(5, MOST_LABELS, 1, MOST_NESTED).renamed(&["call"]);
    assert_eq!(put(&calls, 5).open, MOST_LABELS as u64);
    // The innermost of each chain is a boarding, and the others wait for it, all of them at the same time.
    let waits = put(&innermost_boarded(calls), 5);
    assert_eq!(waits.boarded, (MOST_LABELS / MOST_NESTED * (MOST_NESTED - 1)) as u64);
    assert!(waits.total > u64::from(u32::MAX), "{waits:?}");
}

/// The same day with a boarding for the last call of each chain.
fn innermost_boarded(mut day: Day) -> Day {
    let calls = day.lists.get_mut(b"call".as_slice()).expect("the day has calls");
    let boards: Vec<Label> = calls.iter().copied().skip(MOST_NESTED - 1).step_by(MOST_NESTED).collect();
    calls.retain(|label| boards.binary_search(label).is_err());
    day.lists.insert(b"board".to_vec(), boards);
    day
}

#[test]
fn looks_near_and_far() {
    let waits = put(&halves_day(MOST_LABELS).renamed(&["call", "cancel"]), 7);
    assert_eq!((waits.calls, waits.cancelled), (1, 1));
    for distance in [1, 20, 30_000] {
        let day = apart_day(47, MOST_LABELS, distance).renamed(&["call", "board"]);
        let waits = put(&day, 47);
        assert_eq!(waits.boarded, waits.calls);
    }
}
