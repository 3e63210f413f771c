//! The proved library's numbers as they are, for whoever wants those of a refusal, too. `include/roadthrum.h` has the promises.
//!
//! All that is unsafe in this crate stands in this file. Its functions take slices: their lengths are true, they are aligned, and what is
//! written overlaps nothing else. But for the stack that is all that a caller of the library owes.
//!
//! ```
//! use roadthrum::raw;
//!
//! let index = days::small_day().to_bytes();
//! let mut buffer = [7; 2];
//! assert_eq!(raw::answer(&index, b"//call[//board]", 2, &mut buffer), [0, 2, 0, 5, 32]);
//! assert_eq!(buffer, [2, 3]);
//! assert_eq!(raw::answer(&index, b"/call", 2, &mut buffer), [8, 0, 0, 0, 32]);
//! assert_eq!(raw::check(b""), 1);
//! assert_eq!(raw::waits(&index, &[7; 29]), [0, 5, 2, 2, 1, 0, 0, 4]);
//! assert_eq!(raw::waits(&index, &[7; 28]), [20, 0, 0, 0, 0, 0, 0, 0]);
//! ```

/// What stands in place of a step where each step's name has a row in the index, and on a refusal. Steps go from 0 to at most 31.
pub const NO_STEP: u32 = 32;

// What a caller owes to each of these is said in include/roadthrum.h. None of them is public, nor is what calls them through a pointer.
extern "C" {
    fn roadthrum_check(index: *const u8, index_len: usize) -> u32;

    fn roadthrum_answer(
        index: *const u8,
        index_len: usize,
        question: *const u8,
        question_len: usize,
        place: u32,
        rows: *mut u32,
        rows_len: usize,
        result: *mut [u32; 5],
    );

    fn roadthrum_evidence(
        index: *const u8,
        index_len: usize,
        question: *const u8,
        question_len: usize,
        place: u32,
        rows: *mut u32,
        rows_len: usize,
        result: *mut [u32; 5],
    );

    fn roadthrum_waits(index: *const u8, index_len: usize, times: *const u32, times_len: usize, figures: *mut [u64; 8]);
}

/// The number of the first reason against the index, or 0 for a lawful one.
pub fn check(index: &[u8]) -> u32 {
    // SAFETY: the pointer and the length are those of one slice, which is only read.
    unsafe { roadthrum_check(index.as_ptr(), index.len()) }
}

/// The answer call. Gives its refusal or 0, the rows written, 1 if a further record remains and else 0, the next place, and the first step
/// whose name has no row in the index or [`NO_STEP`].
pub fn answer(index: &[u8], question: &[u8], place: u32, buffer: &mut [u32]) -> [u32; 5] {
    // SAFETY: this is one of the library's two calls for rows.
    unsafe { numbers(roadthrum_answer, index, question, place, buffer) }
}

/// The evidence call. Gives the same five numbers.
pub fn evidence(index: &[u8], question: &[u8], place: u32, buffer: &mut [u32]) -> [u32; 5] {
    // SAFETY: this is the other.
    unsafe { numbers(roadthrum_evidence, index, question, place, buffer) }
}

/// The waits call. Gives its refusal or 0, then the calls, the boarded, the cancelled and the open ones, the total wait, the longest, and
/// the number that the total is divided by for the mean.
pub fn waits(index: &[u8], times: &[u32]) -> [u64; 8] {
    let mut figures = [u64::MAX; 8];
    // SAFETY: each pointer and length are those of one slice, which is only read; the figures are lent to this call alone; the times and the
    // figures are aligned as their types are.
    unsafe {
        roadthrum_waits(index.as_ptr(), index.len(), times.as_ptr(), times.len(), &mut figures);
    }
    figures
}

/// One of the two calls for rows, or any other function of that type.
type Call = unsafe extern "C" fn(*const u8, usize, *const u8, usize, u32, *mut u32, usize, *mut [u32; 5]);

/// The five numbers that a call gives.
///
/// # Safety
///
/// The call has to be one of the library's two: they read and write only what they are lent.
unsafe fn numbers(call: Call, index: &[u8], question: &[u8], place: u32, buffer: &mut [u32]) -> [u32; 5] {
    let mut result = [u32::MAX; 5];
    // SAFETY: each pointer and length are those of one slice; the buffer and the result are lent to this call alone, so that they overlap
    // neither each other nor what is read; both are aligned as their types are.
    unsafe {
        call(index.as_ptr(), index.len(), question.as_ptr(), question.len(), place, buffer.as_mut_ptr(), buffer.len(), &mut result);
    }
    result
}
