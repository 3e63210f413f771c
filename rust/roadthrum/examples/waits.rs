//! The waiting table of the small day, once with the fault of the old tool and once as it is. `make demo` ends with this.

use days::{is_inside, small_day, small_times, Day, Label};
use roadthrum::{waits, Refusal, Waits};

fn main() -> Result<(), Refusal> {
    let day = small_day();
    let times = small_times();
    print_day(&day, &times);
    print_tables(&with_the_fault(&day, &times), &waits(&day.to_bytes(), &times)?);
    Ok(())
}

/// Prints each record with its times, in order of start, further to the right the more records lie around it.
fn print_day(day: &Day, times: &[u32]) {
    let mut records: Vec<(Label, &str)> = Vec::new();
    for (tag, list) in &day.lists {
        let tag = std::str::from_utf8(tag).expect("a tag's name is ASCII");
        records.extend(list.iter().map(|label| (*label, tag)));
    }
    records.sort_unstable();
    println!("    {:<18}{:<15}ends", "record", "starts");
    for (label, tag) in &records {
        let around = records.iter().filter(|(outer, _)| is_inside(*label, *outer)).count();
        let record = format!("{:indent$}{tag} {}:{}", "", label.0, label.1, indent = 2 * around);
        println!("    {record:<18}{:<15}{}", clock(times[label.0 as usize]), clock(times[label.1 as usize]));
    }
}

/// A time of day from milliseconds since midnight.
fn clock(time: u32) -> String {
    let seconds = time / 1_000;
    format!("{:02}:{:02}:{:02}.{:03}", seconds / 3_600, seconds / 60 % 60, seconds % 60, time % 1_000)
}

/// The fault of the old tool, to show what it does to the figures. No call of this library gives such a table.
///
/// It took for granted that calls never lie in each other, and so kept the innermost of a nest alone: whoever gave up and pressed again was
/// counted from the last press. And it looked for boardings alone, so that those who gave up are in none of its figures.
fn with_the_fault(day: &Day, times: &[u32]) -> Waits {
    let list = |name: &str| day.lists.get(name.as_bytes()).cloned().unwrap_or_default();
    let (calls, boards) = (list("call"), list("board"));
    let mut table = Waits::default();
    for call in calls.iter().filter(|call| !calls.iter().any(|inner| is_inside(*inner, **call))) {
        table.calls += 1;
        match boards.iter().find(|board| is_inside(**board, *call)) {
            Some(board) => {
                let wait = u64::from(times[board.0 as usize] - times[call.0 as usize]);
                table.boarded += 1;
                table.total += wait;
                table.longest = table.longest.max(wait);
            }
            None => table.open += 1,
        }
    }
    table.over = table.boarded;
    table
}

/// Prints the two tables side by side.
fn print_tables(fault: &Waits, right: &Waits) {
    let row = |name: &str, figure: fn(&Waits) -> String| println!("    {name:<14}{:>18}{:>18}", figure(fault), figure(right));
    println!();
    println!("    {:<14}{:>18}{:>18}", "", "with the fault", "as it is");
    row("calls", |table| table.calls.to_string());
    row("boarded", |table| table.boarded.to_string());
    row("cancelled", |table| table.cancelled.to_string());
    row("open", |table| table.open.to_string());
    row("total wait", |table| format!("{} ms", table.total));
    row("longest wait", |table| format!("{} ms", table.longest));
    row("mean", |table| format!("{} ms", table.mean()));
}
