//! The first evaluator: all picks, by trying all.

use crate::{Asked, Row};
use std::collections::BTreeSet;

/// The evidence of each returned record, in the order of the records.
pub fn rows(asked: &Asked) -> Vec<Row> {
    let mut picks = Vec::new();
    try_all(asked, &mut Vec::new(), &mut picks);
    let records: BTreeSet<u32> = picks.iter().map(|pick| pick[asked.returned]).collect();
    records.into_iter().map(|record| earliest(asked, record, &picks)).collect()
}

/// Adds to the picks all those that begin with the given records. A step hangs from an earlier one, so that one's record is
/// known.
fn try_all(asked: &Asked, begun: &mut Row, picks: &mut Vec<Row>) {
    let step = begun.len();
    if step == asked.lists.len() {
        picks.push(begun.clone());
        return;
    }
    for position in 0..asked.lists[step].len() as u32 {
        if asked.may_pick(step, position, begun) {
            begun.push(position);
            try_all(asked, begun, picks);
            begun.pop();
        }
    }
}

/// Of the picks with the record at the returned step, the one that is the earliest at every step at once.
fn earliest(asked: &Asked, record: u32, picks: &[Row]) -> Row {
    let of_record: Vec<&Row> = picks.iter().filter(|pick| pick[asked.returned] == record).collect();
    let mut earliest = of_record[0].clone();
    for pick in &of_record {
        for step in 0..earliest.len() {
            earliest[step] = earliest[step].min(pick[step]);
        }
    }
    assert!(of_record.contains(&&earliest), "no pick with record {record} is the earliest at every step at once");
    earliest
}
