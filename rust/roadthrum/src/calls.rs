//! The check, and the two calls for rows.

use crate::{raw, Refusal};

/// What a call for rows gives beside those in the lent buffer.
#[derive(Clone, Copy, Debug, PartialEq, Eq)]
pub struct Page {
    /// The rows written, from the buffer's beginning.
    pub rows: usize,
    /// Whether a further record remains.
    pub more: bool,
    /// The position of the first record not written, or, if none remains, the number of labels in the returned step's list.
    pub next: u32,
    /// The first step whose name has no row in the index, or nothing if each has one. It is counted from 0 in the order of the text, with
    /// those in brackets, as the positions in a row of evidence are. A question with such a step has no records: look here before saying
    /// that there are none, since the name may be misspelled. A name whose row has no labels is known.
    pub unknown: Option<usize>,
}

/// Whether the index is lawful, and if not, the first reason against it: one of the refusals 1 to 6.
///
/// ```
/// use roadthrum::{check, Refusal};
///
/// assert_eq!(check(&days::small_day().to_bytes()), Ok(()));
/// assert_eq!(check(b"\x00\x00\x02\x00"), Err(Refusal::OtherVersion));
/// ```
pub fn check(index: &[u8]) -> Result<(), Refusal> {
    Refusal::unless_zero(raw::check(index).into())
}

/// Writes to the buffer the list positions of the returned records from `place` on, as many as it has room for. On a refusal the buffer
/// is as it was.
///
/// ```
/// let index = days::small_day().to_bytes();
/// let mut buffer = [7; 3];
/// let page = roadthrum::answer(&index, b"//call[//cancel]", 0, &mut buffer)?;
/// // The calls at positions 0 and 1, 1:20 and 4:15; the rest of the buffer stays. The list has five calls.
/// assert_eq!((page.rows, page.more, page.next), (2, false, 5));
/// assert_eq!(buffer, [0, 1, 7]);
///
/// // A misspelled name gives no records, just as a true "none" does; but the index has no row for the name of step 1.
/// let page = roadthrum::answer(&index, b"//call[//cancle]", 0, &mut buffer)?;
/// assert_eq!((page.rows, page.unknown), (0, Some(1)));
/// # Ok::<(), roadthrum::Refusal>(())
/// ```
pub fn answer(index: &[u8], question: &[u8], place: u32, buffer: &mut [u32]) -> Result<Page, Refusal> {
    page(raw::answer(index, question, place, buffer))
}

/// Writes to the buffer a row for each returned record from `place` on, as many as it has room for: the list positions of the records that
/// stand as evidence, one for each step of the question, the earliest at every step at once. On a refusal the buffer is as it was. How many
/// numbers a row takes is what [`steps`](crate::steps) says of the question.
///
/// ```
/// let index = days::small_day().to_bytes();
/// let mut buffer = [0; 3];
/// let page = roadthrum::evidence(&index, b"//call[//cancel]//board", 0, &mut buffer)?;
/// // Boarding 8:9 inside call 1:20, which has the cancellation 2:3 inside.
/// assert_eq!((page.rows, buffer), (1, [0, 0, 0]));
/// # Ok::<(), roadthrum::Refusal>(())
/// ```
pub fn evidence(index: &[u8], question: &[u8], place: u32, buffer: &mut [u32]) -> Result<Page, Refusal> {
    page(raw::evidence(index, question, place, buffer))
}

fn page([refusal, rows, more, next, unknown]: [u32; 5]) -> Result<Page, Refusal> {
    Refusal::unless_zero(refusal.into())?;
    let unknown = (unknown != raw::NO_STEP).then_some(unknown as usize);
    Ok(Page { rows: rows as usize, more: more != 0, next, unknown })
}
