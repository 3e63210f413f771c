//! The library beside the first evaluator on small cases, lawful and damaged.

use compare::{compare_case, small_case, Library, Seeds, Tally, KINDS_OF_NAMES, PROVED, TWIN, WRAPPED};
use evaluator::{Asked, Way};

/// Compares so many cases, and sees that each refusal and each kind of result is among them so many times.
fn compare_small(library: &Library, cases: u64, each_refusal: u64, each_kind: u64) {
    let seeds = Seeds::new(cases);
    let seen = seeds.run(|seed| compare_case(library, &small_case(seed)));
    if seeds.one_alone() {
        return;
    }
    assert!(seen.of("by AllPicks") >= cases / 3);
    for call in ["answer", "evidence"] {
        for refusal in 1..=9 {
            assert!(seen.of(&format!("{call}: refusal {refusal}")) >= each_refusal, "refusal {refusal} is hardly seen");
        }
        for kind in ["rows", "rows and more", "no rows and more", "rows from a later place"] {
            assert!(seen.of(&format!("{call}: {kind}")) >= each_kind, "{kind} is hardly seen");
        }
    }
    for kind in KINDS_OF_NAMES {
        assert!(seen.of(kind) >= each_kind, "{kind} is hardly seen");
    }
}

#[test]
fn small_cases() {
    compare_small(&PROVED, 1_000_000, 1_000, 10_000);
}

#[test]
fn small_cases_through_the_wrapper() {
    compare_small(&WRAPPED, 100_000, 100, 1_000);
}

#[test]
fn small_cases_by_the_twin() {
    compare_small(&TWIN, 100_000, 100, 1_000);
}

/// Compares what the wrapper says of a question's steps with what the evaluator reads, beside an index without records.
fn compare_steps(seed: u64) -> Result<Tally, String> {
    let case = small_case(seed);
    let expected = Asked::read(&[0, 0, 1, 0], &case.question).map(|asked| asked.found(Way::Sets).steps);
    let given = roadthrum::steps(&case.question).map_err(|refusal| refusal.number());
    if expected != given {
        return Err(format!("steps: expected {expected:?}, given {given:?}\n{case}"));
    }
    let mut tally = Tally::default();
    match given {
        Ok(steps) => tally.count(&format!("{steps} steps"), true),
        Err(refusal) => tally.count(&format!("refusal {refusal}"), true),
    }
    Ok(tally)
}

#[test]
fn steps_of_small_questions() {
    let seeds = Seeds::new(20_000);
    let seen = seeds.run(compare_steps);
    if seeds.one_alone() {
        return;
    }
    for kind in ["1 steps", "2 steps", "5 steps", "32 steps", "refusal 7", "refusal 8", "refusal 9"] {
        assert!(seen.of(kind) >= 20, "{kind} is hardly seen");
    }
}

/// Compares what a walk says of the unknown step, before its first page and after its last, with what the evaluator reads.
fn compare_unknown(seed: u64) -> Result<Tally, String> {
    let case = small_case(seed);
    let expected = Asked::read(&case.index, &case.question).map(|asked| asked.unknown());
    let mut walk = roadthrum::evidence_pages(&case.index, &case.question, case.answer_room).starting_at(case.place);
    let before = walk.unknown();
    walk.by_ref().for_each(drop);
    for given in [before, walk.unknown()].map(|given| given.map_err(|refusal| refusal.number())) {
        if expected != given {
            return Err(format!("the unknown step of a walk: expected {expected:?}, given {given:?}\n{case}"));
        }
    }
    let mut tally = Tally::default();
    tally.count("a refusal", expected.is_err());
    tally.count("an unknown step", expected.is_ok_and(|unknown| unknown.is_some()));
    tally.count("no unknown step", expected.is_ok_and(|unknown| unknown.is_none()));
    Ok(tally)
}

#[test]
fn unknown_steps_of_walks() {
    let seeds = Seeds::new(20_000);
    let seen = seeds.run(compare_unknown);
    if seeds.one_alone() {
        return;
    }
    for kind in ["a refusal", "an unknown step", "no unknown step"] {
        assert!(seen.of(kind) >= 1_000, "{kind} is hardly seen");
    }
}
