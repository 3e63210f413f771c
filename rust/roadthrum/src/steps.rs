//! How many steps a question has.

use crate::{answer, Refusal};

/// A lawful index without records: no tags, version 1. With it a call refuses nothing but the question.
const NO_RECORDS: [u8; 4] = [0, 0, 1, 0];

/// The number of steps of a question, 1 to 32, which is how many list positions a row of its evidence has; or, for a question that is not
/// accepted, the refusal 7, 8 or 9 that every lawful index gets with it.
///
/// Whether the question is accepted is the proved library's word. The steps of an accepted one are then counted here: each begins with
/// `//`, and no name has a slash.
///
/// ```
/// use roadthrum::{steps, Refusal};
///
/// assert_eq!(steps(b"//call[//call[//cancel]]//board"), Ok(4));
/// assert_eq!(steps(b"//call[//board"), Err(Refusal::NotFollowing));
/// assert_eq!(steps("//call".repeat(33).as_bytes()), Err(Refusal::TooLarge));
///
/// // Room for ten rows of evidence.
/// let question = b"//call[//board]";
/// let mut buffer = vec![0; 10 * steps(question)?];
/// assert_eq!(roadthrum::evidence(&days::small_day().to_bytes(), question, 0, &mut buffer)?.rows, 4);
/// # Ok::<(), Refusal>(())
/// ```
pub fn steps(question: &[u8]) -> Result<usize, Refusal> {
    answer(&NO_RECORDS, question, 0, &mut [])?;
    Ok(steps_if_accepted(question))
}

/// The number of steps of a question if it is accepted. Of any other text it is half the slashes, and says nothing.
pub(crate) fn steps_if_accepted(question: &[u8]) -> usize {
    question.iter().filter(|byte| **byte == b'/').count() / 2
}
