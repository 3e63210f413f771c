//! The second evaluator beside the first.

use compare::{few_enough, small_case, Seeds, Tally};
use evaluator::{Asked, Way};

/// Compares the two where the case is not refused and all picks can be tried.
fn compare_ways(seed: u64) -> Result<Tally, String> {
    let case = small_case(seed);
    let mut tally = Tally::default();
    let Some(asked) = Asked::read(&case.index, &case.question).ok().filter(few_enough) else {
        return Ok(tally);
    };
    let (first, second) = (asked.found(Way::AllPicks), asked.found(Way::Sets));
    if first != second {
        return Err(format!("all picks: {first:?}, sets: {second:?}\n{case}"));
    }
    tally.count("compared", true);
    tally.count("something found", !first.rows.is_empty());
    tally.count("found with over 5 steps", !first.rows.is_empty() && first.steps > 5);
    Ok(tally)
}

#[test]
fn both_evaluators_give_the_same() {
    // Other cases than those of the library's comparison.
    let seeds = Seeds::new(200_000);
    let seen = seeds.run(|seed| compare_ways(seed + (1 << 32)));
    if !seeds.one_alone() {
        assert!(seen.of("compared") >= 50_000);
        assert!(seen.of("something found") >= 20_000);
        assert!(seen.of("found with over 5 steps") >= 500);
    }
}
