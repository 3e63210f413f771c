//! The waiting table.

use crate::{raw, Refusal};
use std::fmt;

/// How long the callers of a day waited, with those who gave up. Where each figure is 0, as in the default, the day has no calls.
#[derive(Clone, Copy, Debug, Default, PartialEq, Eq, Hash)]
pub struct Waits {
    /// The calls of the day: the boarded, the cancelled and the open ones together.
    pub calls: u64,
    /// The calls in which a boarding came first.
    pub boarded: u64,
    /// The calls in which a cancellation came first.
    pub cancelled: u64,
    /// The calls with neither inside. They have no wait.
    pub open: u64,
    /// The waits of the boarded and the cancelled calls together, in milliseconds.
    pub total: u64,
    /// The longest of these waits, in milliseconds, or 0 if there is none.
    pub longest: u64,
    /// How many waits there are: the boarded and the cancelled calls together.
    pub over: u64,
}

impl Waits {
    /// The mean wait of the boarded and the cancelled calls. An open call is no part of it.
    pub fn mean(&self) -> Mean {
        Mean { total: self.total, over: self.over }
    }
}

/// A mean wait as a fraction of two numbers, which is not reduced: so it still says of how many calls it is the mean. Two of them are equal
/// if both numbers are; 4/2 is another than 2/1.
///
/// ```
/// let mean = roadthrum::waits(&days::small_day().to_bytes(), &days::small_times())?.mean();
/// assert_eq!((mean.total, mean.over), (61_000, 4));
/// assert_eq!(format!("{mean} ms"), "61000/4 ms");
/// # Ok::<(), roadthrum::Refusal>(())
/// ```
#[derive(Clone, Copy, Debug, PartialEq, Eq, Hash)]
pub struct Mean {
    /// The total wait in milliseconds.
    pub total: u64,
    /// How many calls it is the total of. Where this is 0 nobody boarded or gave up, and there is no mean.
    pub over: u64,
}

impl fmt::Display for Mean {
    fn fmt(&self, f: &mut fmt::Formatter<'_>) -> fmt::Result {
        write!(f, "{}/{}", self.total, self.over)
    }
}

/// The waiting table of a day, or the first reason against it: one of the refusals 1 to 6 of the index, [`Refusal::NoEntry`] or
/// [`Refusal::TimesDescend`]. `times` has the time of each number of the index, in milliseconds: entry i, counted from 0, is the time of
/// the start or end i.
///
/// What became of a call is said by the boarding or cancellation inside it that starts first, also where that lies in another call inside
/// it: the call is boarded or cancelled, and with neither inside it is open. The wait runs from the call's start to the start of that record.
/// A missing row of `call`, `board` or `cancel` counts as an empty one.
///
/// ```
/// use roadthrum::{waits, Refusal, Waits};
///
/// // Calls 1:20, 4:15, 7:12, 21:26 and 27:28, cancellations 2:3 and 5:6, boardings 8:9 and 22:23. The first caller gives up after 30 seconds
/// // and, having pressed again, after 15 more, and then boards after 9. The second boards after 7. The last call comes to nothing.
/// let index = days::small_day().to_bytes();
/// let times = days::small_times();
/// let table = waits(&index, &times)?;
/// assert_eq!(table, Waits { calls: 5, boarded: 2, cancelled: 2, open: 1, total: 61_000, longest: 30_000, over: 4 });
///
/// // The last number of the index is 28, so that 29 entries are needed.
/// assert_eq!(waits(&index, &times[..28]), Err(Refusal::NoEntry));
/// // No entry may be smaller than the one before, also behind the last that is needed.
/// let descending = [times.as_slice(), &[0]].concat();
/// assert_eq!(waits(&index, &descending), Err(Refusal::TimesDescend));
/// # Ok::<(), Refusal>(())
/// ```
pub fn waits(index: &[u8], times: &[u32]) -> Result<Waits, Refusal> {
    let [refusal, calls, boarded, cancelled, open, total, longest, over] = raw::waits(index, times);
    Refusal::unless_zero(refusal)?;
    Ok(Waits { calls, boarded, cancelled, open, total, longest, over })
}
