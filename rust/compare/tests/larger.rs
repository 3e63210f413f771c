//! The library beside the second evaluator on days of up to 5,000 records: single pages, all pages in a row, and damaged days.

use compare::{compare_case, compare_rows, count_names, damage_labels, large_case, Case, Seeds, Tally, KINDS_OF_NAMES, PROVED};
use days::Seeded;
use evaluator::{Asked, Found, Row, Way};
use roadthrum::{answer_pages, evidence_pages, Pages};
use std::collections::BTreeSet;

fn compare_larger(seed: u64) -> Result<Tally, String> {
    let mut case = large_case(seed);
    let random = &mut Seeded::new(!seed);
    let mut tally = Tally::default();
    let found = evaluate(&case, &mut tally);
    tally.add(compare_rows(&PROVED, &case, &found)?);
    for _ in 0..5 {
        case.choose_page(random);
        tally.add(compare_rows(&PROVED, &case, &found)?);
    }
    let found = found.map_err(|refusal| format!("a lawful case has the refusal {refusal}\n{case}"))?;
    let room = 1 + found.rows.len() / (1 + random.below(20));
    for place in BTreeSet::from([0, case.place]) {
        let rows: Vec<Row> = found.rows.iter().filter(|row| row[found.returned] >= place).cloned().collect();
        let returned: Vec<Row> = rows.iter().map(|row| vec![row[found.returned]]).collect();
        compare_walk(&case, room, answer_pages(&case.index, &case.question, room).starting_at(place), &returned, found.unknown)?;
        compare_walk(&case, room, evidence_pages(&case.index, &case.question, room).starting_at(place), &rows, found.unknown)?;
        let kind = if place == 0 { "walks of many pages" } else { "walks of many pages from a later place" };
        tally.count(kind, rows.len() > 2 * room);
    }
    if random.chance(1, 2) {
        damage_labels(random, &mut case.index);
        tally.add(compare_case(&PROVED, &case)?);
    }
    Ok(tally)
}

/// What the case gives by the second evaluator, or the refusal number.
fn evaluate(case: &Case, tally: &mut Tally) -> Result<Found, u32> {
    let asked = Asked::read(&case.index, &case.question)?;
    let found = asked.found(Way::Sets);
    count_names(tally, &asked, &found);
    Ok(found)
}

/// Whether the pages of a walk are the rows in order, each page with as many as it has room for, and none empty; and whether the walk tells
/// the unknown step, before it begins and after it ends.
fn compare_walk(case: &Case, room: usize, mut walk: Pages, rows: &[Row], unknown: Option<usize>) -> Result<(), String> {
    let before = walk.unknown();
    let mut pages = Vec::new();
    for page in &mut walk {
        let page = page.map_err(|refusal| format!("a walk gives the refusal {}\n{case}", refusal.number()))?;
        pages.push(page.iter().map(<[u32]>::to_vec).collect::<Vec<Row>>());
    }
    for told in [before, walk.unknown()] {
        if told != Ok(unknown) {
            return Err(format!("the unknown step of a walk: expected {unknown:?}, given {told:?}\n{case}"));
        }
    }
    let expected: Vec<Vec<Row>> = rows.chunks(room).map(<[Row]>::to_vec).collect();
    if pages != expected {
        return Err(format!("pages of {room} rows: expected {expected:?}, given {pages:?}\n{case}"));
    }
    Ok(())
}

#[test]
fn larger_days() {
    let seeds = Seeds::new(2_500);
    let seen = seeds.run(compare_larger);
    if seeds.one_alone() {
        return;
    }
    for kind in ["answer: rows and more", "evidence: rows and more", "evidence: rows from a later place", "walks of many pages"] {
        assert!(seen.of(kind) >= 1_000, "{kind} is hardly seen");
    }
    assert!(seen.of("walks of many pages from a later place") >= 100, "walks from a later place are hardly seen");
    for kind in KINDS_OF_NAMES {
        assert!(seen.of(kind) >= 25, "{kind} is hardly seen");
    }
    for refusal in [5, 6] {
        assert!(seen.of(&format!("answer: refusal {refusal}")) >= 50, "refusal {refusal} is hardly seen");
    }
}
