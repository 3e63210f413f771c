//! Questions of 32 steps on days 64 deep, in which records lie in records of their own tag.

use crate::compared::{self, Question};
use crate::measure::Contenders;
use crate::source::Source;
use crate::{table, Failure};

const SIZES: [usize; 3] = [10_000, 100_000, 1_048_576];
const DEPTH: usize = 64;

pub fn print(contenders: &Contenders) -> Result<(), Failure> {
    for records in SIZES {
        println!("\n## {} records of one tag, {DEPTH} deep, 32 steps\n", table::number(records));
        compared::print(contenders, Source::Nested { records, tags: 1, depth: DEPTH }, &[chain(), brackets()])?;
    }
    println!("\n## {} records of two tags, {DEPTH} deep, 32 steps\n", table::number(SIZES[2]));
    compared::print(contenders, Source::Nested { records: SIZES[2], tags: 2, depth: DEPTH }, &[turns()])
}

/// Each step inside the one before.
fn chain() -> Question {
    Question { called: "`//t000` 32 times".into(), text: "//t000".repeat(32) }
}

/// Three steps that each carry brackets 8 deep, which makes 27 steps, and 5 more.
fn brackets() -> Question {
    let carrying = format!("{}//t000{}", "//t000[".repeat(8), "]".repeat(8));
    let text = carrying.repeat(3) + &"//t000".repeat(5);
    Question { called: "three times `//t000` with brackets 8 deep, then `//t000` 5 times".into(), text }
}

/// The two tags in turn.
fn turns() -> Question {
    Question { called: "`//t000//t001` 16 times".into(), text: "//t000//t001".repeat(16) }
}
