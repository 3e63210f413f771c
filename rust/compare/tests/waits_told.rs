//! The comparison of waiting tables can fail: each way to make one here is wrong in one thing, and is told from the right one within few
//! cases.

mod waiting_ways;

use compare::{compare_waits, waiting_case, PROVED};
use days::{is_inside, Label};
use evaluator::Waits;
use waiting_ways::{between, descends, earlier, first, first_of, lacks, Became, Lists, Way, RIGHT};

/// What the comparison says of the first case in which the waiting table is found to be wrong.
fn first_difference(waits: impl Fn(&[u8], &[u32]) -> Waits) -> Option<String> {
    (0..5_000).map(waiting_case).find_map(|case| compare_waits(&waits, &case, evaluator::waits(&case.index, &case.times)).err())
}

/// Whether the way is told from the right one.
fn told(way: Way) -> bool {
    first_difference(|index, times| way.waits(index, times)).is_some_and(|difference| difference.starts_with("waits: expected Waits"))
}

#[test]
fn the_right_one_is_not_told() {
    assert_eq!(first_difference(PROVED.waits), None);
    assert!(!told(RIGHT));
}

#[test]
fn a_right_one_in_another_way_is_not_told() {
    let another = Way {
        // What starts between the start and the end of a call lies inside it, since no two labels cross.
        became: |lists, call| {
            let starts_inside = |label: &&Label| call.0 < label.0 && label.0 < call.1;
            let least = |list: &[Label]| list.iter().rev().filter(starts_inside).min().copied();
            earlier(least(&lists.boards), least(&lists.cancels))
        },
        // The greatest number is an end, and if that has an entry, all have.
        refusal: |lists, times| {
            let greatest = lists.all.values().flatten().map(|label| label.1).max();
            first_of(greatest.is_some_and(|number| times.get(number as usize).is_none()), !times.is_sorted())
        },
        // Whoever is not open boarded or gave up.
        at_last: |waits| Waits { over: waits.calls - waits.open, ..waits },
        ..RIGHT
    };
    assert!(!told(another));
}

#[test]
fn each_figure_is_compared() {
    let case = waiting_case(0);
    let right = Waits { refusal: 0, calls: 5, boarded: 2, cancelled: 2, open: 1, total: 61, longest: 30, over: 4 };
    assert!(compare_waits(|_, _| right, &case, right).is_ok());
    for wrong in [
        Waits { refusal: 20, ..right },
        Waits { calls: 4, ..right },
        Waits { boarded: 3, ..right },
        Waits { cancelled: 1, ..right },
        Waits { open: 0, ..right },
        Waits { total: 62, ..right },
        Waits { longest: 29, ..right },
        Waits { over: 5, ..right },
    ] {
        assert!(compare_waits(|_, _| wrong, &case, right).is_err(), "{wrong:?}");
    }
}

#[test]
fn one_that_counts_some_calls_alone() {
    fn counts(counts: fn(&Lists, Label) -> bool) -> Way {
        Way { counts, ..RIGHT }
    }
    // The innermost of a nest, the outermost of it, and those that are not open.
    assert!(told(counts(|lists, call| !lists.calls.iter().any(|inner| is_inside(*inner, call)))));
    assert!(told(counts(|lists, call| !lists.calls.iter().any(|outer| is_inside(call, *outer)))));
    assert!(told(counts(|lists, call| !matches!((RIGHT.became)(lists, call), Became::Open))));
}

/// A way that takes other records.
fn takes(became: fn(&Lists, Label) -> Became) -> Way {
    Way { became, ..RIGHT }
}

#[test]
fn one_that_prefers_boardings_or_cancellations() {
    assert!(told(takes(|lists, call| match first(&lists.boards, |label| is_inside(label, call)) {
        Some(board) => Became::Boarded(board),
        None => (RIGHT.became)(lists, call),
    })));
    assert!(told(takes(|lists, call| match first(&lists.cancels, |label| is_inside(label, call)) {
        Some(cancel) => Became::Cancelled(cancel),
        None => (RIGHT.became)(lists, call),
    })));
}

#[test]
fn one_that_takes_a_record_outside_the_call() {
    // One after the call's end, among boardings or among cancellations.
    assert!(told(takes(|lists, call| earlier(
        first(&lists.boards, |label| call.0 < label.0),
        first(&lists.cancels, |label| is_inside(label, call)),
    ))));
    assert!(told(takes(|lists, call| earlier(
        first(&lists.boards, |label| is_inside(label, call)),
        first(&lists.cancels, |label| call.0 < label.0),
    ))));
    // One of the call before, since the place in the list is not moved on.
    assert!(told(takes(|lists, call| earlier(
        first(&lists.boards, |label| label.0 < call.1),
        first(&lists.cancels, |label| is_inside(label, call)),
    ))));
}

#[test]
fn one_that_takes_another_record_inside() {
    // The last.
    assert!(told(takes(|lists, call| {
        let last = |list: &[Label]| list.iter().copied().rfind(|label| is_inside(*label, call));
        earlier(last(&lists.boards), last(&lists.cancels))
    })));
    // The first that does not lie in a call inside.
    assert!(told(takes(|lists, call| {
        let in_another = |label| lists.calls.iter().any(|inner| is_inside(*inner, call) && is_inside(label, *inner));
        let own = |list: &[Label]| first(list, |label| is_inside(label, call) && !in_another(label));
        earlier(own(&lists.boards), own(&lists.cancels))
    })));
}

#[test]
fn one_that_measures_another_wait() {
    fn measures(wait: fn(&[u32], Label, Label) -> u64) -> Way {
        Way { wait, ..RIGHT }
    }
    // To the record's end, from the record to the call's end, and from the first time of all.
    assert!(told(measures(|times, call, record| between(times, call.0, record.1))));
    assert!(told(measures(|times, call, record| between(times, record.0, call.1))));
    assert!(told(measures(|times, _, record| between(times, 0, record.0))));
}

#[test]
fn one_that_leaves_waits_out() {
    assert!(told(Way { adds: |became| matches!(became, Became::Boarded(_)), ..RIGHT }));
    assert!(told(Way { adds: |became| matches!(became, Became::Cancelled(_)), ..RIGHT }));
}

#[test]
fn one_that_gives_other_figures() {
    fn gives(at_last: fn(Waits) -> Waits) -> Way {
        Way { at_last, ..RIGHT }
    }
    // Open calls in the mean, or boarded ones alone.
    assert!(told(gives(|waits| Waits { over: waits.calls, ..waits })));
    assert!(told(gives(|waits| Waits { over: waits.boarded, ..waits })));
    // A mean that is reduced where it is a whole number.
    assert!(told(gives(|waits| match waits.total.checked_rem(waits.over) {
        Some(0) => Waits { total: waits.total / waits.over, over: 1, ..waits },
        _ => waits,
    })));
    // A total that lost what is over 32 bits.
    assert!(told(gives(|waits| Waits { total: u64::from(waits.total as u32), ..waits })));
    // The total for the longest.
    assert!(told(gives(|waits| Waits { longest: waits.total, ..waits })));
}

/// A way that refuses times for other reasons.
fn refuses(refusal: fn(&Lists, &[u32]) -> u32) -> Way {
    Way { refusal, ..RIGHT }
}

#[test]
fn one_that_refuses_in_another_order() {
    assert!(told(refuses(|lists, times| if descends(times) { 21 } else { (RIGHT.refusal)(lists, times) })));
}

#[test]
fn one_that_looks_for_entries_of_some_numbers_alone() {
    // Those of the calls, those of the three tags, and starts.
    assert!(told(refuses(|lists, times| first_of(lacks(&lists.calls, times), descends(times)))));
    assert!(told(refuses(|lists, times| {
        let three = lists.calls.iter().chain(&lists.boards).chain(&lists.cancels);
        first_of(lacks(three, times), descends(times))
    })));
    assert!(told(refuses(|lists, times| {
        let mut starts = lists.all.values().flatten().map(|label| label.0);
        first_of(starts.any(|start| start as usize >= times.len()), descends(times))
    })));
    // One entry more than is needed, and one less.
    assert!(told(refuses(|lists, times| first_of(
        lists.all.values().flatten().any(|label| label.1 as usize + 1 >= times.len()),
        descends(times)
    ))));
    assert!(told(refuses(|lists, times| first_of(
        lists.all.values().flatten().any(|label| label.1 as usize > times.len()),
        descends(times)
    ))));
}

#[test]
fn one_that_looks_at_some_times_alone() {
    // Not at the last, not at the first, and not past the numbers in use.
    assert!(told(refuses(|lists, times| match times {
        [rest @ .., _] => first_of((RIGHT.refusal)(lists, times) == 20, descends(rest)),
        [] => (RIGHT.refusal)(lists, times),
    })));
    assert!(told(refuses(|lists, times| match times {
        [_, rest @ ..] => first_of((RIGHT.refusal)(lists, times) == 20, descends(rest)),
        [] => (RIGHT.refusal)(lists, times),
    })));
    assert!(told(refuses(|lists, times| {
        let in_use = lists.all.values().flatten().map(|label| label.1 as usize + 1).max().unwrap_or(0);
        first_of((RIGHT.refusal)(lists, times) == 20, descends(&times[..in_use.min(times.len())]))
    })));
    // Equal ones taken for descending ones.
    assert!(told(refuses(|lists, times| {
        first_of((RIGHT.refusal)(lists, times) == 20, times.windows(2).any(|pair| pair[1] <= pair[0]))
    })));
}

#[test]
fn one_that_refuses_times_before_the_index() {
    let times_first = |index: &[u8], times: &[u32]| match (PROVED.waits)(index, times) {
        waits if (1..=6).contains(&waits.refusal) && descends(times) => Waits { refusal: 21, ..waits },
        waits => waits,
    };
    assert!(first_difference(times_first).is_some());
}

#[test]
fn one_that_leaves_figures_on_a_refusal() {
    let on_a_broken_index = |index: &[u8], times: &[u32]| match (PROVED.waits)(index, times) {
        waits if (1..=6).contains(&waits.refusal) => Waits { calls: 1, ..waits },
        waits => waits,
    };
    assert!(first_difference(on_a_broken_index).is_some());
    assert!(told(Way { on_refusal: |refusal, waits| Waits { refusal, ..waits }, ..RIGHT }));
    assert!(told(Way { on_refusal: |refusal, waits| Waits { refusal, calls: waits.calls, ..Waits::default() }, ..RIGHT }));
}
