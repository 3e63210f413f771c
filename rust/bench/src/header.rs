//! When and where the measurements were made, and how.

use crate::measure::Contenders;
use crate::{libxml2, rival, timing};
use std::time::SystemTime;

pub fn print(contenders: &Contenders) {
    println!("# Benchmarks\n");
    println!("- Date (UTC): {}", today());
    println!("- Processor: {}, {} cores", processor(), std::thread::available_parallelism().map_or(1, usize::from));
    println!("- Compiler of the twin: {}", env!("COMPILER_VERSION"));
    let rival = libxml2::Library::load();
    match &rival {
        Some(library) => println!("- libxml2: {}", library.version()),
        None => println!("- libxml2 was skipped because it is not installed."),
    }
    how_the_twin_is_measured();
    if contenders.with_before() {
        println!("\nThe library as it was before is loaded as a shared library; it takes its turn, and has to agree as well.");
        println!("One without a waits call takes no part in that table.");
    }
    if rival.is_some() {
        how_libxml2_is_measured();
    }
}

fn how_the_twin_is_measured() {
    println!(
        "\nEvery time is the least of at least {} runs that together took at least {:.1} s, or of fewer where they took over {} s; the \
         library's and the twin's runs take turns. The answer, the evidence and the waits call are timed whole, with the check of the \
         index that each of them makes; what they take less the check stands in a table of its own. The buffers have ample room. The run \
         stops unless library and twin agree in every number of them.",
        timing::LEAST_RUNS,
        timing::ENOUGH.as_secs_f64(),
        timing::TOO_MUCH.as_secs(),
    );
}

fn how_libxml2_is_measured() {
    println!(
        "\nlibxml2 evaluates the compiled question on the tree already parsed, with `[//` written `[.//`; no reading and no check is in \
         its time. It is ended after {} s. The run stops unless it finds as many nodes as the answer call finds records.",
        rival::LIMIT.as_secs(),
    );
}

/// The processor's own name for itself.
fn processor() -> String {
    let text = std::fs::read_to_string("/proc/cpuinfo").unwrap_or_default();
    let model = text.lines().find_map(|line| line.strip_prefix("model name")?.split_once(':'));
    model.map_or("unknown".to_string(), |(_, name)| name.trim().to_string())
}

fn today() -> String {
    let seconds = SystemTime::now().duration_since(SystemTime::UNIX_EPOCH).map_or(0, |time| time.as_secs());
    let (year, month, day) = civil(seconds / 86_400);
    format!("{year}-{month:02}-{day:02}")
}

/// The date that is so many days after the first of January 1970. Counted in years that begin in March, so that a leap day is the last day
/// of its year, and in spans of 400 years, which are all of one length.
fn civil(days: u64) -> (u64, u64, u64) {
    let since_march_of_0 = days + 719_468;
    let (span, in_span) = (since_march_of_0 / 146_097, since_march_of_0 % 146_097);
    let year_of_span = (in_span - in_span / 1_460 + in_span / 36_524 - in_span / 146_096) / 365;
    let in_year = in_span - (365 * year_of_span + year_of_span / 4 - year_of_span / 100);
    let months_since_march = (5 * in_year + 2) / 153;
    let day = in_year - (153 * months_since_march + 2) / 5 + 1;
    let month = if months_since_march < 10 { months_since_march + 3 } else { months_since_march - 9 };
    let year = 400 * span + year_of_span + u64::from(month <= 2);
    (year, month, day)
}

#[cfg(test)]
mod tests {
    use super::civil;

    #[test]
    fn known_dates() {
        assert_eq!(civil(0), (1970, 1, 1));
        assert_eq!(civil(11_016), (2000, 2, 29));
        assert_eq!(civil(11_017), (2000, 3, 1));
        assert_eq!(civil(20_088), (2024, 12, 31));
        assert_eq!(civil(20_089), (2025, 1, 1));
    }
}
