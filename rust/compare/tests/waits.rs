//! The waiting table: the library as C calls it and as Rust does, the twin and the evaluator are held to the cases by hand, and compared in
//! every figure on small days with times, whole and damaged.

#[path = "../../evaluator/tests/waits_by_hand/mod.rs"]
mod waits_by_hand;

use compare::{
    compare_waits, count_waits, larger_waiting_case, waiting_case, Seeds, Tally, Waiting, WaitingCase, KINDS_OF_REFUSED_TIMES,
    KINDS_OF_TABLES, PROVED, TWIN, WRAPPED,
};
use days::Day;
use waits_by_hand::{any_times, broken_indexes, cases, Tag};

/// Whoever gives a waiting table, but for the evaluator.
const JUDGED: [(&str, Waiting); 3] =
    [("the library from C", PROVED.waits), ("the library from Rust", WRAPPED.waits), ("the twin", TWIN.waits)];

/// The index of a day by hand.
fn index(tags: &[Tag]) -> Vec<u8> {
    let lists = tags.iter().map(|(name, labels)| (name.as_bytes().to_vec(), labels.to_vec()));
    Day { lists: lists.collect() }.to_bytes()
}

/// All of them and the evaluator give these figures.
fn all_give(what: &str, index: &[u8], times: &[u32], told: [u64; 8]) {
    for (name, waits) in JUDGED.into_iter().chain([("the evaluator", evaluator::waits as Waiting)]) {
        assert_eq!(waits(index, times).numbers(), told, "{what}: {name}");
    }
}

#[test]
fn cases_by_hand() {
    for case in cases() {
        all_give(case.what, &index(&case.day), &case.times, case.told);
    }
    for (index, refusal) in broken_indexes() {
        for times in any_times() {
            all_give("a broken index", index, times, [refusal, 0, 0, 0, 0, 0, 0, 0]);
        }
    }
}

#[test]
fn the_small_day_with_its_times() {
    // 30 and 15 seconds until the caller gave up, 9 and 7 until somebody boarded.
    all_give("the small day", &days::small_day().to_bytes(), &days::small_times(), [0, 5, 2, 2, 1, 61_000, 30_000, 4]);
}

fn compare_all(case: &WaitingCase) -> Result<Tally, String> {
    let expected = evaluator::waits(&case.index, &case.times);
    for (name, waits) in JUDGED {
        compare_waits(waits, case, expected).map_err(|difference| format!("{name}: {difference}"))?;
    }
    let mut tally = Tally::default();
    count_waits(&mut tally, case, expected);
    Ok(tally)
}

#[test]
fn small_days_with_times() {
    let seeds = Seeds::new(1_000_000);
    let seen = seeds.run(|seed| compare_all(&waiting_case(seed)));
    if seeds.one_alone() {
        return;
    }
    for refusal in [0, 20, 21] {
        assert!(seen.of(&format!("refusal {refusal}")) >= 100_000, "refusal {refusal} is hardly seen");
    }
    for refusal in 1..=6 {
        assert!(seen.of(&format!("refusal {refusal}")) >= 1_000, "refusal {refusal} is hardly seen");
    }
    let kinds = KINDS_OF_TABLES.iter().map(|(kind, _)| kind).chain(KINDS_OF_REFUSED_TIMES.iter().map(|(kind, _)| kind));
    for kind in kinds {
        assert!(seen.of(kind) >= 300, "{kind} is hardly seen");
    }
}

#[test]
fn larger_days_with_times() {
    let seeds = Seeds::new(500);
    let seen = seeds.run(|seed| compare_all(&larger_waiting_case(seed)));
    if seeds.one_alone() {
        return;
    }
    for refusal in [0, 20, 21] {
        assert!(seen.of(&format!("refusal {refusal}")) >= 50, "refusal {refusal} is hardly seen");
    }
    for kind in ["boarded, cancelled and open calls", "a cancelled call with a boarded one inside", "equal entries"] {
        assert!(seen.of(kind) >= 50, "{kind} is hardly seen");
    }
}
