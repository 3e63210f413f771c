//! The program beside the evaluators: both files are written into a folder of their own, and what it prints, and says on standard error, is
//! compared as a whole.

use compare::{few_enough, large_case, small_case, Case, Seeds, Tally};
use evaluator::{noted, printed, Asked, Way};
use std::path::{Path, PathBuf};
use std::process::Command;

/// The program, as `make program` leaves it in the repository's folder.
fn program() -> PathBuf {
    let program = Path::new(env!("CARGO_MANIFEST_DIR")).join("../../target/roadthrum");
    assert!(program.exists(), "{} is missing: run `make program` first", program.display());
    program.canonicalize().expect("the program has a path")
}

fn compare_printed(kind: &str, seed: u64, case: &Case) -> Result<Tally, String> {
    let folder = std::env::temp_dir().join(format!("roadthrum-{}-{kind}-{seed}", std::process::id()));
    std::fs::create_dir(&folder).map_err(|error| format!("{}: {error}", folder.display()))?;
    std::fs::write(folder.join("day.idx"), &case.index).expect("the day is written");
    std::fs::write(folder.join("query.txt"), &case.question).expect("the question is written");
    let output = Command::new(program()).current_dir(&folder).output().expect("the program runs");
    std::fs::remove_dir_all(&folder).expect("the folder is removed");
    let (expected, note) = (expected(case), noted(&case.index, &case.question));
    if !output.status.success() || output.stderr != note.as_bytes() || output.stdout != expected.as_bytes() {
        let (printed, said) = (output.stdout.escape_ascii(), output.stderr.escape_ascii());
        return Err(format!("expected:\n{expected}{note}given ({}):\n{printed}\n{said}\n{case}", output.status));
    }
    let mut tally = Tally::default();
    tally.count("refused", expected.starts_with("refused"));
    tally.count("rows", !expected.starts_with("refused") && !expected.starts_with("done"));
    tally.count("over 64 rows", expected.lines().count() > 65);
    tally.count("a note", !note.is_empty());
    tally.count("no rows and no note", expected.starts_with("done") && note.is_empty());
    Ok(tally)
}

fn expected(case: &Case) -> String {
    let small = Asked::read(&case.index, &case.question).is_ok_and(|asked| few_enough(&asked));
    printed(if small { Way::AllPicks } else { Way::Sets }, &case.index, &case.question)
}

#[test]
fn small_days_are_printed() {
    let seeds = Seeds::new(4_000);
    let seen = seeds.run(|seed| compare_printed("small", seed, &small_case(seed)));
    if !seeds.one_alone() {
        assert!(seen.of("refused") >= 1_000);
        assert!(seen.of("rows") >= 400);
        assert!(seen.of("a note") >= 300);
        assert!(seen.of("no rows and no note") >= 300);
    }
}

#[test]
fn days_of_many_pages_are_printed() {
    let seeds = Seeds::new(300);
    let seen = seeds.run(|seed| compare_printed("large", seed, &large_case(seed)));
    if !seeds.one_alone() {
        assert!(seen.of("over 64 rows") >= 50);
        assert!(seen.of("a note") >= 5);
    }
}
