//! The library's algorithm in ordinary Rust, to hold its speed against.
//!
//! The steps are those of the library, one module for each of its rooms, and so is the order of growth; how a step is written is what
//! suits Rust. Nothing here is proved.

#![forbid(unsafe_code)]

mod contents;
mod cursors;
mod label;
mod lists;
mod name;
mod pages;
mod question;
mod sweep;
mod waits;

use contents::{contents, find, Row};
use cursors::Step;
use label::List;
use pages::{write_page, Shown};

pub use pages::{Page, NO_STEP};
pub use waits::Waits;

/// The number of the first reason for which the index is refused, or 0 for a lawful one.
pub fn check(index: &[u8]) -> u32 {
    checked(index).map_or_else(|refusal| refusal, |_| 0)
}

/// A page of the list positions of the returned records, from `place` on.
pub fn answer(index: &[u8], question: &[u8], place: u32, out: &mut [u32]) -> Page {
    respond(index, question, place, Shown::Returned, out).unwrap_or_else(Page::refused)
}

/// A page of rows, one for each returned record from `place` on, with the list position of each step's record.
pub fn evidence(index: &[u8], question: &[u8], place: u32, out: &mut [u32]) -> Page {
    respond(index, question, place, Shown::All, out).unwrap_or_else(Page::refused)
}

/// The waiting table of a day, of which entry i of the times is the time of the start or end i.
pub fn waits(index: &[u8], times: &[u32]) -> Waits {
    checked(index).and_then(|rows| waits::table(&rows, times)).unwrap_or_else(Waits::refused)
}

/// The rows of a lawful index.
fn checked(index: &[u8]) -> Result<Vec<Row<'_>>, u32> {
    let rows = contents(index)?;
    if rows.iter().any(|row| lists::wrong(row.list)) {
        return Err(5);
    }
    if sweep::wrong(rows.iter().map(|row| row.list).collect()) {
        return Err(6);
    }
    Ok(rows)
}

/// What both calls for rows do: check the index, read the question, find each step's list, and write a page. An unknown name has an empty list.
fn respond(index: &[u8], text: &[u8], place: u32, shown: Shown, out: &mut [u32]) -> Result<Page, u32> {
    let rows = checked(index)?;
    let question = question::read(text)?;
    let lists: Vec<Option<List>> = question.steps.iter().map(|step| find(&rows, step.name)).collect();
    let unknown = lists.iter().position(Option::is_none).map_or(NO_STEP, |step| step as u32);
    let hanging = question.steps.iter().map(|step| step.hangs);
    let steps: Vec<Step> = lists.into_iter().zip(hanging).map(|(list, hangs)| Step { list: list.unwrap_or_default(), hangs }).collect();
    Ok(Page { unknown, ..write_page(&steps, question.returned, place, shown, out) })
}
