//! Whether a library gives what the evaluators give.

use crate::{Call, Case, Library, Tally};
use evaluator::{Asked, Found, Outcome, Way};

/// Compares the check and the calls for rows on one case, and gives what was seen or says what differs.
pub fn compare_case(library: &Library, case: &Case) -> Result<Tally, String> {
    let (expected, given) = (evaluator::check(&case.index), (library.check)(&case.index));
    if expected != given {
        return Err(format!("check: expected {expected}, given {given}\n{case}"));
    }
    let mut tally = Tally::default();
    let found = evaluate(case, &mut tally);
    tally.add(compare_rows(library, case, &found)?);
    Ok(tally)
}

/// Compares the calls for rows on one case, of which is known what is found or which refusal is given.
pub fn compare_rows(library: &Library, case: &Case, found: &Result<Found, u32>) -> Result<Tally, String> {
    let mut tally = Tally::default();
    for (name, room, expected, given) in [
        ("answer", case.answer_room, Found::answer as Pager, library.answer),
        ("evidence", case.evidence_room, Found::evidence as Pager, library.evidence),
    ] {
        let outcome = compare_call(case, room, found, expected, given).map_err(|difference| format!("{name}: {difference}\n{case}"))?;
        tally.count(&format!("{name}: refusal {}", outcome.refusal), true);
        tally.count(&format!("{name}: rows"), outcome.rows > 0);
        tally.count(&format!("{name}: rows and more"), outcome.rows > 0 && outcome.more);
        tally.count(&format!("{name}: no rows and more"), outcome.rows == 0 && outcome.more);
        tally.count(&format!("{name}: rows from a later place"), outcome.rows > 0 && case.place > 0);
    }
    Ok(tally)
}

/// What the case gives by the first evaluator wherever it can be waited for, or the refusal number.
fn evaluate(case: &Case, tally: &mut Tally) -> Result<Found, u32> {
    let asked = Asked::read(&case.index, &case.question)?;
    let way = if few_enough(&asked) { Way::AllPicks } else { Way::Sets };
    let found = asked.found(way);
    count_names(tally, &asked, &found);
    tally.count(&format!("by {way:?}"), true);
    tally.count(&format!("by {way:?}, something found"), !found.rows.is_empty());
    tally.count(&format!("by {way:?}, something found with over 5 steps"), !found.rows.is_empty() && found.steps > 5);
    tally.count(&format!("by {way:?}, something found with 32 steps"), !found.rows.is_empty() && found.steps == 32);
    Ok(found)
}

/// What there can be among a question's names: some without a row, some whose row has number 0, or neither.
pub const KINDS_OF_NAMES: [&str; 5] = [
    "an unknown step",
    "an unknown step after the first",
    "an unknown step in a bracket",
    "no records though every name is known",
    "a known name without records",
];

/// Counts which of these there are.
pub fn count_names(tally: &mut Tally, asked: &Asked, found: &Found) {
    let seen = [
        found.unknown.is_some(),
        found.unknown.is_some_and(|step| step > 0),
        found.unknown.is_some_and(|step| !asked.is_outside_brackets(step)),
        found.unknown.is_none() && found.rows.is_empty(),
        asked.has_an_empty_row(),
    ];
    for (kind, seen) in KINDS_OF_NAMES.iter().zip(seen) {
        tally.count(kind, seen);
    }
}

/// Whether there are few enough picks to try all: as many as 12 records and 5 steps have at most.
pub fn few_enough(asked: &Asked) -> bool {
    asked.tries() <= 12u64.pow(5)
}

/// A page of the one or the other kind.
type Pager = fn(&Found, u32, &mut [u32]) -> Outcome;

fn compare_call(case: &Case, room: usize, found: &Result<Found, u32>, expected: Pager, given: Call) -> Result<Outcome, String> {
    compare_page(
        room,
        |buffer| match found {
            Ok(found) => expected(found, case.place, buffer),
            Err(refusal) => Outcome::refused(*refusal),
        },
        |buffer| given(&case.index, &case.question, case.place, buffer),
    )
}

/// Numbers before and after the lent buffer that nobody may touch.
const AROUND: usize = 4;

/// Lends each of two calls a buffer of the same length and content, and compares what they give and every number after them, those around
/// the buffer, too.
pub fn compare_page(
    room: usize,
    expected: impl FnOnce(&mut [u32]) -> Outcome,
    given: impl FnOnce(&mut [u32]) -> Outcome,
) -> Result<Outcome, String> {
    let mut expected_numbers: Vec<u32> = (0..room + 2 * AROUND).map(|place| 0xabcd_0000 ^ place as u32).collect();
    let mut given_numbers = expected_numbers.clone();
    let expected = expected(&mut expected_numbers[AROUND..AROUND + room]);
    let given = given(&mut given_numbers[AROUND..AROUND + room]);
    if expected != given {
        return Err(format!("expected {expected:?}, given {given:?}"));
    }
    if let Some(place) = (0..expected_numbers.len()).find(|place| expected_numbers[*place] != given_numbers[*place]) {
        let (expected, given) = (expected_numbers[place], given_numbers[place]);
        return Err(format!("buffer[{}]: expected {expected}, given {given}", place as i64 - AROUND as i64));
    }
    Ok(expected)
}
