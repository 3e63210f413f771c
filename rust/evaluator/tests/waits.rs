//! Change request C-17: the waiting table. What is expected is worked out by hand.

mod days;
mod waits_by_hand;

use days::{day, small_day};
use evaluator::{calls, waits, Label, Made};
use waits_by_hand::{any_times, broken_indexes, cases};

#[test]
fn cases_by_hand() {
    for case in cases() {
        assert_eq!(waits(&day(&case.day), &case.times).numbers(), case.told, "{}", case.what);
    }
}

#[test]
fn broken_indexes_come_first() {
    for (index, refusal) in broken_indexes() {
        for times in any_times() {
            assert_eq!(waits(index, times).numbers(), [refusal, 0, 0, 0, 0, 0, 0, 0], "{index:?} with {times:?}");
        }
    }
}

#[test]
fn what_becomes_of_each_call() {
    let first: Vec<Option<(Made, Label)>> = calls(&small_day(), &[0; 29]).unwrap().into_iter().map(|call| call.first).collect();
    let label = |start| Label { start, end: start + 1 };
    let expected = [
        Some((Made::Cancelled, label(2))),
        Some((Made::Cancelled, label(5))),
        Some((Made::Boarded, label(8))),
        Some((Made::Boarded, label(22))),
        None,
    ];
    assert_eq!(first, expected);
}
