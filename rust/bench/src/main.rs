//! The library's speed beside its twin in ordinary Rust and beside libxml2's XPath, as Markdown tables.
//!
//! Called without arguments it measures all. With arguments it is the child process that measures libxml2 on one day and one question.

#![deny(unsafe_code, unsafe_op_in_unsafe_fn)]
#![deny(clippy::undocumented_unsafe_blocks)]

#[allow(unsafe_code)]
mod before;
mod compared;
mod contenders;
mod far;
mod growth;
mod header;
#[allow(unsafe_code)]
mod libxml2;
mod lift;
#[allow(unsafe_code)]
mod loaded;
mod measure;
mod nested;
mod report;
mod rival;
mod source;
mod table;
mod timing;
mod waiting;
mod xml;

use std::process::ExitCode;

/// What went wrong, in a plain sentence.
type Failure = String;

fn main() -> ExitCode {
    let words: Vec<String> = std::env::args().skip(1).collect();
    let outcome = if words.is_empty() { measure_all() } else { rival::serve(&words) };
    match outcome {
        Ok(()) => ExitCode::SUCCESS,
        Err(failure) => {
            eprintln!("{failure}");
            ExitCode::FAILURE
        }
    }
}

fn measure_all() -> Result<(), Failure> {
    let contenders = measure::Contenders::named()?;
    header::print(&contenders);
    lift::print(&contenders)?;
    nested::print(&contenders)?;
    far::print(&contenders)?;
    growth::print(&contenders)?;
    waiting::print(&contenders)
}
