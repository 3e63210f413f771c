//! The waiting table, less the check: what the call itself takes, beside the twin.

use crate::measure::Contenders;
use crate::source::Source;
use crate::timing::Times;
use crate::{table, Failure};
use days::rising_times;
use std::time::Duration;

const SIZES: [usize; 3] = [10_000, 100_000, 1_048_576];
const MOST: usize = SIZES[2];
const SEED: u64 = 20_260_117;

/// A day, what it is called, and the names that its tags get: the days of the other tables have no calls, but for those of lifts.
struct Day {
    called: String,
    source: Source,
    names: &'static [&'static str],
}

/// What was measured on a day.
struct Row {
    called: String,
    calls: usize,
    records: usize,
    check: Times,
    waits: Times,
}

pub fn print(contenders: &Contenders) -> Result<(), Failure> {
    println!("\n## The waiting table\n");
    println!("Each number of a day has a time. The call goes through all labels, all times and then all calls.");
    let rows: Vec<Row> = days().iter().map(|day| measure(contenders, day)).collect::<Result<_, _>>()?;
    print_rows("Whole, with the check of the index:", &rows, |row| row.waits, |time, _| table::time(time));
    print_rows("Less the check:", &rows, |row| row.waits.less(row.check), |time, _| table::time(time));
    let lift_days = &rows[..SIZES.len()];
    print_rows("With records, less the check, in nanoseconds for each of them:", lift_days, |row| row.waits.less(row.check), table::each);
    Ok(())
}

/// The lift days come first.
fn days() -> Vec<Day> {
    let lift = SIZES.map(|records| Day {
        called: format!("lift day of {} records", table::number(records)),
        source: Source::Lift { records },
        names: &[],
    });
    let nested = [1, 8, 64].map(|depth| Day {
        called: format!("{} records of the three tags, {depth} deep", table::number(MOST)),
        source: Source::Nested { records: MOST, tags: 3, depth },
        names: &["call", "board", "cancel"],
    });
    let apart = [1, 16, 1024].map(|distance| Day {
        called: format!("{} records, boardings from one call to the next: about {}", table::number(MOST), table::number(distance)),
        source: Source::Apart { records: MOST, distance },
        names: &["call", "board"],
    });
    lift.into_iter().chain(nested).chain(apart).collect()
}

fn measure(contenders: &Contenders, day: &Day) -> Result<Row, Failure> {
    let whole = day.source.day();
    let whole = if day.names.is_empty() { whole } else { whole.renamed(day.names) };
    let (index, times) = (whole.to_bytes(), rising_times(SEED, whole.entries_needed()));
    let check = contenders.check(&index)?;
    let (found, waits) = contenders.waits(&index, &times)?;
    Ok(Row { called: day.called.clone(), calls: found.calls as usize, records: day.source.records(), check, waits })
}

/// A table of one kind of time, with the library as it was before where one is named that has this call.
fn print_rows(title: &str, rows: &[Row], times: fn(&Row) -> Times, written: fn(Duration, usize) -> String) {
    println!("\n{title}");
    let with_before = rows.iter().all(|row| row.waits.before.is_some());
    let columns = ["day", "calls", "waits", "twin", "ratio", "before", "ratio to it"];
    table::head(&columns[..if with_before { 7 } else { 5 }]);
    for row in rows {
        let Times { library, twin, before } = times(row);
        let mut cells = vec![row.called.clone(), table::number(row.calls)];
        cells.extend([written(library, row.records), written(twin, row.records), table::ratio(library, twin)]);
        if let Some(before) = before {
            cells.extend([written(before, row.records), table::ratio(library, before)]);
        }
        table::row(&cells);
    }
}
