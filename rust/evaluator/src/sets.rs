//! The second evaluator: for each step the set of the records that it can have.
//!
//! It can take days and questions that have too many picks to try them all.

use crate::{Asked, Row};
use std::collections::BTreeMap;

/// List positions, ascending.
type Set = Vec<u32>;

/// The evidence of each returned record, in the order of the records.
pub fn rows(asked: &Asked) -> Vec<Row> {
    let below = possible_below(asked);
    let whole = possible_in_the_whole(asked, &below);
    whole[asked.returned].iter().map(|record| evidence(asked, *record, &below, &whole)).collect()
}

/// For each step the records under which all steps that hang from it, and from those, can have a record, too.
fn possible_below(asked: &Asked) -> Vec<Set> {
    let steps = asked.lists.len();
    let mut below = vec![Set::new(); steps];
    for step in (0..steps).rev() {
        let hanging: Vec<usize> = (0..steps).filter(|other| asked.hangs_from[*other] == Some(step)).collect();
        below[step] = (0..asked.lists[step].len() as u32)
            .filter(|record| hanging.iter().all(|other| below[*other].iter().any(|inner| asked.inside((*other, *inner), (step, *record)))))
            .collect();
    }
    below
}

/// For each step the records that it has in some pick: possible below, and inside such a record of the step that it hangs from.
fn possible_in_the_whole(asked: &Asked, below: &[Set]) -> Vec<Set> {
    let mut whole: Vec<Set> = Vec::new();
    for (step, records) in below.iter().enumerate() {
        let is_possible_above = |record: &u32| match asked.hangs_from[step] {
            None => true,
            Some(from) => whole[from].iter().any(|outer| asked.inside((step, *record), (from, *outer))),
        };
        let in_the_whole = records.iter().copied().filter(is_possible_above).collect();
        whole.push(in_the_whole);
    }
    whole
}

/// The earliest at every step of all picks with the record at the returned step.
///
/// From the top down, each step takes the first record that it can have. That loses nothing at a later step: let r be the first and s
/// another that it can have, which so starts after r. If s is inside r, all that lies inside s lies inside r. If s is apart from r, all
/// that lies inside s starts after all that lies inside r; and this is no step on the way to the returned one, since there both would
/// lie around the returned record.
fn evidence(asked: &Asked, record: u32, below: &[Set], whole: &[Set]) -> Row {
    let on_the_way = possible_on_the_way(asked, record, whole);
    let mut row = Row::new();
    for (step, possible_below) in below.iter().enumerate() {
        let possible = on_the_way.get(&step).unwrap_or(possible_below);
        let first = possible.iter().find(|position| asked.may_pick(step, **position, &row));
        row.push(*first.expect("a returned record has a pick"));
    }
    row
}

/// For each step on the way from the first to the returned one, the records that it has in some pick with the given record returned.
fn possible_on_the_way(asked: &Asked, record: u32, whole: &[Set]) -> BTreeMap<usize, Set> {
    let mut step = asked.returned;
    let mut possible = vec![record];
    let mut on_the_way = BTreeMap::new();
    while let Some(from) = asked.hangs_from[step] {
        let is_around_the_returned = |outer: &u32| asked.inside((asked.returned, record), (from, *outer));
        let has_one_inside = |outer: &u32| possible.iter().any(|inner| asked.inside((step, *inner), (from, *outer)));
        // The first of the two follows from the second, and is quicker to see.
        let around = whole[from].iter().copied().filter(|outer| is_around_the_returned(outer) && has_one_inside(outer)).collect();
        on_the_way.insert(step, std::mem::replace(&mut possible, around));
        step = from;
    }
    on_the_way.insert(step, possible);
    on_the_way
}
