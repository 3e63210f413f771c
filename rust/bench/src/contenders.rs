//! Whoever answers: the library, its twin, and the library as it was before, where one is named.

use roadthrum::raw;
use twin::{Page, Waits};

/// A call for rows.
#[derive(Clone, Copy)]
pub enum Call {
    Answer,
    Evidence,
}

pub trait Contender {
    /// The refusal of the index, or 0.
    fn check(&self, index: &[u8]) -> u32;

    /// The first page of a call, with its rows in `out`.
    fn rows(&self, call: Call, index: &[u8], question: &[u8], out: &mut [u32]) -> Page;

    /// The waiting table, or nothing from whoever has no such call.
    fn waits(&self, index: &[u8], times: &[u32]) -> Option<Waits>;
}

pub struct Library;

impl Contender for Library {
    fn check(&self, index: &[u8]) -> u32 {
        raw::check(index)
    }

    fn rows(&self, call: Call, index: &[u8], question: &[u8], out: &mut [u32]) -> Page {
        page_of(match call {
            Call::Answer => raw::answer(index, question, 0, out),
            Call::Evidence => raw::evidence(index, question, 0, out),
        })
    }

    fn waits(&self, index: &[u8], times: &[u32]) -> Option<Waits> {
        Some(waits_of(raw::waits(index, times)))
    }
}

pub struct Twin;

impl Contender for Twin {
    fn check(&self, index: &[u8]) -> u32 {
        twin::check(index)
    }

    fn rows(&self, call: Call, index: &[u8], question: &[u8], out: &mut [u32]) -> Page {
        match call {
            Call::Answer => twin::answer(index, question, 0, out),
            Call::Evidence => twin::evidence(index, question, 0, out),
        }
    }

    fn waits(&self, index: &[u8], times: &[u32]) -> Option<Waits> {
        Some(twin::waits(index, times))
    }
}

/// The library's five numbers in the twin's form.
pub fn page_of([refusal, rows, more, next, unknown]: [u32; 5]) -> Page {
    Page { refusal, rows: rows as usize, more: more != 0, next, unknown }
}

/// The library's eight figures in the twin's form.
pub fn waits_of([refusal, calls, boarded, cancelled, open, total, longest, over]: [u64; 8]) -> Waits {
    Waits { refusal: refusal as u32, calls, boarded, cancelled, open, total, longest, over }
}
