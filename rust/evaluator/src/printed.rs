//! What the program prints.

use crate::{Asked, Way};

/// All that the program prints of an index and a question: one line per row, for each step in order its record as start, colon, end, with
/// one blank between steps; then `done` and the number of rows. Or the single line `refused` and its number.
pub fn printed(way: Way, index: &[u8], question: &[u8]) -> String {
    let asked = match Asked::read(index, question) {
        Ok(asked) => asked,
        Err(refusal) => return format!("refused {refusal}\n"),
    };
    let rows = asked.found(way).rows;
    let mut text = String::new();
    for row in &rows {
        let labels = row.iter().zip(&asked.lists).map(|(position, list)| list[*position as usize]);
        let records: Vec<String> = labels.map(|label| format!("{}:{}", label.start, label.end)).collect();
        text += &records.join(" ");
        text += "\n";
    }
    text + &format!("done {}\n", rows.len())
}

/// All that the program says on standard error: of a question that is accepted the first step whose name has no row, counted from 1, with
/// that name as it was typed. Else nothing.
pub fn noted(index: &[u8], question: &[u8]) -> String {
    let Ok(asked) = Asked::read(index, question) else {
        return String::new();
    };
    match asked.unknown() {
        Some(step) => format!("note: step {}: no record of this day is called \"{}\"\n", step + 1, asked.names[step].escape_ascii()),
        None => String::new(),
    }
}
