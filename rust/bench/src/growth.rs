//! How the cost grows with records, tags, depth and steps.

use crate::measure::Contenders;
use crate::report::{self, Row};
use crate::source::Source;
use crate::{table, Failure};

const MOST: usize = 1_048_576;

/// What grows, at one of its numbers: the day and the question.
type Grown = (usize, Source, String);

pub fn print(contenders: &Contenders) -> Result<(), Failure> {
    println!("\n## Growth\n");
    println!("Nanoseconds for each record of the day.");
    let most = table::number(MOST);
    let two = || "//t000".repeat(2);

    println!("\n### With records: 16 tags, 8 deep, `//t000//t000`");
    let days = [10_000, 100_000, MOST].map(|records| (records, Source::Nested { records, tags: 16, depth: 8 }, two()));
    kind(contenders, "records", days)?;

    println!("\n### With tags: {most} records, 8 deep, `//t000//t000`");
    let days = [1, 4, 16, 64, 256].map(|tags| (tags, Source::Nested { records: MOST, tags, depth: 8 }, two()));
    kind(contenders, "tags", days)?;

    println!("\n### With depth: {most} records, 16 tags, `//t000//t000`");
    let days = [1, 8, 64].map(|depth| (depth, Source::Nested { records: MOST, tags: 16, depth }, two()));
    kind(contenders, "depth", days)?;

    println!("\n### With steps: {most} records, one tag, 64 deep, `//t000` as often as there are steps");
    let days = [1, 2, 4, 8, 16, 32].map(|steps| (steps, Source::Nested { records: MOST, tags: 1, depth: 64 }, "//t000".repeat(steps)));
    kind(contenders, "steps", days)?;

    println!("\n### With distance: {most} records, `//a[//b]`, with about so many `b` from one `a` to the next");
    let days = [1, 4, 16, 64, 1024].map(|distance| (distance, Source::Apart { records: MOST, distance }, "//a[//b]".into()));
    kind(contenders, "distance", days)
}

/// The tables of one kind of growth.
fn kind<const N: usize>(contenders: &Contenders, what: &str, days: [Grown; N]) -> Result<(), Failure> {
    table::head(&[what, "check", "twin", "ratio", "answer", "twin", "ratio", "evidence", "twin", "ratio"]);
    let mut rows = Vec::new();
    for (number, source, question) in days {
        let index = source.day().to_bytes();
        let check = contenders.check(&index)?;
        let asked = contenders.ask(&index, &question)?;
        let row = Row { called: table::number(number), check, asked, written: table::each, records: source.records() };
        let times = [check, asked.answer, asked.evidence].map(|times| row.beside_the_twin(times));
        table::row(&[[row.called.clone()].as_slice(), times.as_flattened()].concat());
        rows.push(row);
    }
    report::print(contenders, what, &rows);
    Ok(())
}
