//! What is compared: the proved library, or in its place one that is wrong.

use evaluator::{Outcome, Waits, NO_STEP};
use roadthrum::raw;

/// A call for rows: index, question, place and the lent buffer.
pub type Call = fn(&[u8], &[u8], u32, &mut [u32]) -> Outcome;

/// The waits call: index and times.
pub type Waiting = fn(&[u8], &[u32]) -> Waits;

/// The four public calls.
#[derive(Clone, Copy)]
pub struct Library {
    pub check: fn(&[u8]) -> u32,
    pub answer: Call,
    pub evidence: Call,
    pub waits: Waiting,
}

/// The proved library as C calls it, so that every number is seen, those of a refusal, too.
pub const PROVED: Library = Library {
    check: raw::check,
    answer: |index, question, place, buffer| numbered(raw::answer(index, question, place, buffer)),
    evidence: |index, question, place, buffer| numbered(raw::evidence(index, question, place, buffer)),
    waits: |index, times| figured(raw::waits(index, times)),
};

/// The proved library as Rust calls it.
pub const WRAPPED: Library = Library {
    check: |index| roadthrum::check(index).map_or_else(|refusal| refusal.number(), |()| 0),
    answer: |index, question, place, buffer| outcome(roadthrum::answer(index, question, place, buffer)),
    evidence: |index, question, place, buffer| outcome(roadthrum::evidence(index, question, place, buffer)),
    waits: |index, times| waited(roadthrum::waits(index, times)),
};

/// The same algorithm in ordinary Rust, which has to be right for its speed to say anything.
pub const TWIN: Library = Library {
    check: twin::check,
    answer: |index, question, place, buffer| twinned(twin::answer(index, question, place, buffer)),
    evidence: |index, question, place, buffer| twinned(twin::evidence(index, question, place, buffer)),
    waits: |index, times| twin_waited(twin::waits(index, times)),
};

fn numbered([refusal, rows, more, next, unknown]: [u32; 5]) -> Outcome {
    assert!(more <= 1, "more is {more}");
    Outcome { refusal, rows: rows as usize, more: more == 1, next, unknown }
}

fn outcome(result: Result<roadthrum::Page, roadthrum::Refusal>) -> Outcome {
    match result {
        Ok(roadthrum::Page { rows, more, next, unknown }) => {
            Outcome { refusal: 0, rows, more, next, unknown: unknown.map_or(NO_STEP, |step| step as u32) }
        }
        Err(refusal) => Outcome::refused(refusal.number()),
    }
}

fn twinned(twin::Page { refusal, rows, more, next, unknown }: twin::Page) -> Outcome {
    Outcome { refusal, rows, more, next, unknown }
}

fn figured([refusal, calls, boarded, cancelled, open, total, longest, over]: [u64; 8]) -> Waits {
    let refusal = u32::try_from(refusal).expect("a refusal has few digits");
    Waits { refusal, calls, boarded, cancelled, open, total, longest, over }
}

/// The mean is the wrapper's own, and is compared as well.
fn waited(result: Result<roadthrum::Waits, roadthrum::Refusal>) -> Waits {
    match result {
        Ok(waits) => {
            let roadthrum::Waits { calls, boarded, cancelled, open, total, longest, over } = waits;
            assert_eq!(waits.mean(), roadthrum::Mean { total, over });
            Waits { refusal: 0, calls, boarded, cancelled, open, total, longest, over }
        }
        Err(refusal) => Waits { refusal: refusal.number(), ..Waits::default() },
    }
}

fn twin_waited(twin::Waits { refusal, calls, boarded, cancelled, open, total, longest, over }: twin::Waits) -> Waits {
    Waits { refusal, calls, boarded, cancelled, open, total, longest, over }
}
