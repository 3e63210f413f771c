//! A day on which every look goes half a list away: there a search by doubling steps takes more reads than halving the whole list.

use crate::compared::{self, Question};
use crate::measure::Contenders;
use crate::source::Source;
use crate::{table, Failure};

/// On larger days the time of 31 looks is lost in that of the check; `tests/reads.test` counts their reads there.
const SIZES: [usize; 2] = [1_000, 10_000];

pub fn print(contenders: &Contenders) -> Result<(), Failure> {
    for records in SIZES {
        println!("\n## {} records, and each of 31 looks goes half of a list\n", table::number(records));
        let question = Question { called: "`//half` with 31 times `[//t]`".into(), text: format!("//half{}", "[//t]".repeat(31)) };
        compared::print(contenders, Source::Halves { records }, &[question])?;
    }
    Ok(())
}
