//! The five questions on days of a building's lifts.

use crate::compared::{self, Question};
use crate::measure::Contenders;
use crate::source::Source;
use crate::{table, Failure};

const SIZES: [usize; 3] = [10_000, 100_000, 1_048_576];

const QUESTIONS: [&str; 5] =
    ["//call[//cancel]", "//call[//cancel]//board", "//call//call//call", "//call[//call[//cancel]]//board", "//stop//door"];

pub fn print(contenders: &Contenders) -> Result<(), Failure> {
    let questions = QUESTIONS.map(|text| Question { called: format!("`{text}`"), text: text.into() });
    for records in SIZES {
        println!("\n## Lift day of {} records\n", table::number(records));
        compared::print(contenders, Source::Lift { records }, &questions)?;
    }
    Ok(())
}
