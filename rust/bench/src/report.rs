//! The tables of one day's or one kind of growth's measurements.

use crate::measure::{Asked, Contenders};
use crate::table;
use crate::timing::Times;
use std::time::Duration;

/// What was measured, and the times of the check and of both calls for rows.
pub struct Row {
    pub called: String,
    pub check: Times,
    pub asked: Asked,
    /// How a time is written.
    pub written: fn(Duration, usize) -> String,
    /// The number of the day's records.
    pub records: usize,
}

impl Row {
    /// The library's time, the twin's, and how many times as long the library takes.
    pub fn beside_the_twin(&self, times: Times) -> [String; 3] {
        self.pair(times.library, times.twin)
    }

    /// The time before, the time now, and how many times as long it takes now.
    fn since(&self, times: Times) -> [String; 3] {
        let before = times.before.unwrap_or_default();
        let [now, before, ratio] = self.pair(times.library, before);
        [before, now, ratio]
    }

    fn pair(&self, one: Duration, other: Duration) -> [String; 3] {
        [(self.written)(one, self.records), (self.written)(other, self.records), table::ratio(one, other)]
    }

    fn cells(&self, times: &[Times], pair: fn(&Row, Times) -> [String; 3]) -> Vec<String> {
        let mut cells = vec![self.called.clone()];
        cells.extend(times.iter().flat_map(|times| pair(self, *times)));
        cells
    }
}

/// The calls less the check, which hides what the engine takes; and all beside the library as it was before, where one is named.
pub fn print(contenders: &Contenders, what: &str, rows: &[Row]) {
    println!("\nThe calls less the check:");
    table::head(&[what, "answer", "twin", "ratio", "evidence", "twin", "ratio"]);
    for row in rows {
        let Row { check, asked, .. } = row;
        table::row(&row.cells(&[asked.answer.less(*check), asked.evidence.less(*check)], Row::beside_the_twin));
    }
    if !contenders.with_before() {
        return;
    }
    println!("\nThe library before and now:");
    table::head(&[
        what,
        "answer before",
        "now",
        "ratio",
        "less the check, before",
        "now",
        "ratio",
        "evidence before",
        "now",
        "ratio",
        "less the check, before",
        "now",
        "ratio",
    ]);
    for row in rows {
        let Row { check, asked, .. } = row;
        let calls = [asked.answer, asked.answer.less(*check), asked.evidence, asked.evidence.less(*check)];
        table::row(&row.cells(&calls, Row::since));
    }
}
