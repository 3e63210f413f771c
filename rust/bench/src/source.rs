//! What a day is made from, so that a child process can make the same day.

use days::{apart_day, halves_day, lift_day, nested_day, Day};

const SEED: u64 = 20_260_101;

#[derive(Clone, Copy)]
pub enum Source {
    Lift { records: usize },
    Nested { records: usize, tags: usize, depth: usize },
    Halves { records: usize },
    Apart { records: usize, distance: usize },
}

impl Source {
    pub fn day(self) -> Day {
        match self {
            Source::Lift { records } => lift_day(SEED, records),
            Source::Nested { records, tags, depth } => nested_day(SEED, records, tags, depth),
            Source::Halves { records } => halves_day(records),
            Source::Apart { records, distance } => apart_day(SEED, records, distance),
        }
    }

    pub fn records(self) -> usize {
        match self {
            Source::Lift { records } | Source::Halves { records } => records,
            Source::Nested { records, .. } | Source::Apart { records, .. } => records,
        }
    }

    /// The words that a child process is given.
    pub fn to_words(self) -> Vec<String> {
        match self {
            Source::Lift { records } => vec!["lift".into(), records.to_string()],
            Source::Nested { records, tags, depth } => vec!["nested".into(), records.to_string(), tags.to_string(), depth.to_string()],
            Source::Halves { records } => vec!["halves".into(), records.to_string()],
            Source::Apart { records, distance } => vec!["apart".into(), records.to_string(), distance.to_string()],
        }
    }

    pub fn from_words(words: &[String]) -> Option<Source> {
        let (kind, numbers) = words.split_first()?;
        let numbers: Vec<usize> = numbers.iter().map(|word| word.parse().ok()).collect::<Option<_>>()?;
        match (kind.as_str(), numbers.as_slice()) {
            ("lift", [records]) => Some(Source::Lift { records: *records }),
            ("halves", [records]) => Some(Source::Halves { records: *records }),
            ("apart", [records, distance]) => Some(Source::Apart { records: *records, distance: *distance }),
            ("nested", [records, tags, depth]) => Some(Source::Nested { records: *records, tags: *tags, depth: *depth }),
            _ => None,
        }
    }
}
