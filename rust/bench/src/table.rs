//! Markdown tables, printed row by row as the measurements come.

use std::time::Duration;

/// The head of a table. The first column is text, the others are numbers.
pub fn head(columns: &[&str]) {
    println!("\n| {} |", columns.join(" | "));
    println!("|---|{}", "---:|".repeat(columns.len() - 1));
}

pub fn row(cells: &[String]) {
    println!("| {} |", cells.join(" | "));
}

/// A number with its thousands set apart.
pub fn number(number: usize) -> String {
    let digits = number.to_string();
    let groups: Vec<&str> = digits.as_bytes().rchunks(3).rev().map(|group| std::str::from_utf8(group).expect("digits")).collect();
    groups.join(",")
}

pub fn time(time: Duration) -> String {
    match time.as_secs_f64() {
        seconds if seconds < 0.001 => format!("{:.1} µs", seconds * 1e6),
        seconds if seconds < 1.0 => format!("{:.2} ms", seconds * 1e3),
        seconds => format!("{seconds:.2} s"),
    }
}

/// A time as nanoseconds for each of so many records.
pub fn each(time: Duration, records: usize) -> String {
    format!("{:.2}", time.as_secs_f64() * 1e9 / records as f64)
}

/// How many times as long one thing takes as another; without decimals where they say nothing, and nothing where the other takes none.
pub fn ratio(one: Duration, other: Duration) -> String {
    match one.as_secs_f64() / other.as_secs_f64() {
        _ if other.is_zero() => "–".into(),
        ratio if ratio < 100.0 => format!("{ratio:.2}"),
        ratio => number(ratio as usize),
    }
}

#[cfg(test)]
mod tests {
    use super::*;

    #[test]
    fn numbers_and_times() {
        assert_eq!([0, 999, 1000, 1_048_576].map(number), ["0", "999", "1,000", "1,048,576"]);
        let nanoseconds = [1_500, 2_000_000, 3_250_000_000];
        let ratios = [954, 12_000, 1_174_700].map(|n| ratio(Duration::from_nanos(n), Duration::from_micros(1)));
        assert_eq!(ratios, ["0.95", "12.00", "1,174"]);
        assert_eq!(ratio(Duration::from_nanos(1), Duration::ZERO), "–");
        assert_eq!(each(Duration::from_micros(1), 80), "12.50");
        assert_eq!(nanoseconds.map(|n| time(Duration::from_nanos(n))), ["1.5 µs", "2.00 ms", "3.25 s"]);
    }
}
