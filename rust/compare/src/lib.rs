//! The library beside the evaluators, on cases that follow from a seed.

#![forbid(unsafe_code)]

mod cases;
mod comparing;
mod damaged_index;
mod damaged_name;
mod damaged_question;
mod libraries;
mod random_days;
mod random_questions;
mod random_times;
mod seeds;
mod tally;
mod waiting;
mod waiting_cases;

pub use cases::{large_case, small_case, Case};
pub use comparing::{compare_case, compare_page, compare_rows, count_names, few_enough, KINDS_OF_NAMES};
pub use damaged_index::damage_labels;
pub use libraries::{Call, Library, Waiting, PROVED, TWIN, WRAPPED};
pub use seeds::Seeds;
pub use tally::Tally;
pub use waiting::{compare_waits, count_waits, KINDS_OF_REFUSED_TIMES, KINDS_OF_TABLES};
pub use waiting_cases::{larger_waiting_case, waiting_case, WaitingCase};
