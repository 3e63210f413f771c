//! Some questions on one day: library, twin and libxml2.

use crate::measure::Contenders;
use crate::report::{self, Row};
use crate::rival::{self, Outcome};
use crate::source::Source;
use crate::{table, Failure};
use std::time::Duration;

/// A question, and how a table calls it.
pub struct Question {
    pub called: String,
    pub text: String,
}

const COLUMNS: [&str; 10] = ["question", "returned", "answer", "twin", "ratio", "evidence", "twin", "ratio", "libxml2", "libxml2 / answer"];

/// Prints the times of the check and of each question, as they come, and then what they are less the check.
pub fn print(contenders: &Contenders, source: Source, questions: &[Question]) -> Result<(), Failure> {
    let index = source.day().to_bytes();
    let check = contenders.check(&index)?;
    let [library, twin] = [check.library, check.twin].map(table::time);
    print!("The check alone: library {library}, twin {twin}, ratio {}", table::ratio(check.library, check.twin));
    match check.before {
        Some(before) => println!("; the library before {}, ratio {}.", table::time(before), table::ratio(check.library, before)),
        None => println!("."),
    }
    table::head(&COLUMNS);
    let mut rows = Vec::new();
    for Question { called, text } in questions {
        let asked = contenders.ask(&index, text)?;
        let rival = rival::ask(source, text, asked.records)?;
        let row = Row { called: called.clone(), check, asked, written: |time, _| table::time(time), records: source.records() };
        let mut cells = vec![called.clone(), table::number(asked.records)];
        cells.extend(row.beside_the_twin(asked.answer));
        cells.extend(row.beside_the_twin(asked.evidence));
        cells.extend(beside(rival, asked.answer.library));
        table::row(&cells);
        rows.push(row);
    }
    report::print(contenders, "question", &rows);
    Ok(())
}

/// libxml2's time, and how many times as long it takes as the library's answer call.
fn beside(rival: Outcome, answer: Duration) -> [String; 2] {
    match rival {
        Outcome::Took(time) => [table::time(time), table::ratio(time, answer)],
        Outcome::OverLimit => [format!("over {} s", rival::LIMIT.as_secs()), format!("over {}", table::ratio(rival::LIMIT, answer))],
        Outcome::NotInstalled => ["skipped".into(), "skipped".into()],
    }
}
