//! Questions put to a day of a building's lifts, answered with evidence, and how long its callers waited.
//!
//! A day index holds, for each tag, the labels of its records; a question such as `//call[//board]` asks for the calls with a boarding
//! somewhere inside. [`answer`] gives the list positions of the returned records, [`evidence`] gives for each of them one record for
//! each step of the question, [`waits`] gives the waiting table of the day, and [`check`] only says whether an index is lawful. What they
//! give is proved for every byte string as index and as question and for every list of times: this crate hands these to the proved library
//! and its answer back, and adds types.
//!
//! ```
//! // The small day: calls 1:20, 4:15, 7:12, 21:26 and 27:28, boardings 8:9 and 22:23.
//! let index = days::small_day().to_bytes();
//! let mut buffer = [0; 8];
//! let page = roadthrum::evidence(&index, b"//call[//board]", 0, &mut buffer)?;
//! // Four calls, each with the first boarding inside it. A row is a call's and a boarding's position in their lists.
//! assert_eq!(page.rows, 4);
//! assert_eq!(buffer, [0, 0, 1, 0, 2, 0, 3, 1]);
//! assert!(!page.more);
//! # Ok::<(), roadthrum::Refusal>(())
//! ```
//!
//! A misspelled name gives no records, just as a true "none" does. So look at [`Page::unknown`] before saying that there are none: it is
//! the first step whose name has no row in the index. A walk from page to page has it as well, see [`Pages::unknown`].
//!
//! Large answers come page by page, see [`evidence_pages`] and [`answer_pages`]. Each call checks its index first, which costs more the
//! more records the day has; a page with room for many rows is checked as often as one with room for a few.
//!
//! # Waiting
//!
//! With a list of times beside the index, [`waits`] says how many calls there are, how many of them were boarded, cancelled and left open,
//! and how long those who boarded or gave up had waited: in total, at the longest, and, as a fraction of two numbers, on average.
//!
//! ```
//! let waits = roadthrum::waits(&days::small_day().to_bytes(), &days::small_times())?;
//! assert_eq!((waits.boarded, waits.cancelled, waits.open), (2, 2, 1));
//! assert_eq!(waits.mean().to_string(), "61000/4");
//! # Ok::<(), roadthrum::Refusal>(())
//! ```
//!
//! # The library
//!
//! The proved library is the file `libroadthrum_c.a`, which `make library` in the repository makes in `target/staticlib`. It is looked for
//! there, or, where the variable `ROADTHRUM_LIB_DIR` is set when this crate is built, in the folder that it names; a build without the file
//! ends with a warning that names it. The file is compiled for x86-64 Linux, and a program links it statically. A call takes at most so
//! much stack as `ROADTHRUM_STACK` of the header for C says, which matters only to threads that are made with little.
//!
//! This crate is not proved. What it adds is thin: the unsafe calls, in [`raw`], the types, [`steps`], and the walk from page to page.

#![deny(unsafe_code, unsafe_op_in_unsafe_fn, missing_docs)]
#![deny(clippy::undocumented_unsafe_blocks)]

mod calls;
mod pages;
#[allow(unsafe_code)]
pub mod raw;
mod refusal;
mod steps;
mod waits;

pub use calls::{answer, check, evidence, Page};
pub use pages::{answer_pages, evidence_pages, Pages, Rows};
pub use refusal::Refusal;
pub use steps::steps;
pub use waits::{waits, Mean, Waits};
