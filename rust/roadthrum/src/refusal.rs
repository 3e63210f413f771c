//! Why a call refuses.

use std::fmt;

/// The first reason, in the table's order, for which an index, a question or a list of times is refused. Later versions may have further
/// ones.
///
/// ```
/// use roadthrum::{answer, Refusal};
///
/// let refused = answer(&days::small_day().to_bytes(), b"/call", 0, &mut []);
/// assert_eq!(refused, Err(Refusal::NotFollowing));
/// assert_eq!(Refusal::NotFollowing.number(), 8);
/// assert_eq!(Refusal::NotFollowing.to_string(), "refused 8: the question does not follow the notation");
/// ```
#[derive(Clone, Copy, Debug, PartialEq, Eq, Hash)]
#[non_exhaustive]
pub enum Refusal {
    /// 1: the index has fewer than 4 bytes.
    TooShort = 1,
    /// 2: its version is not 1.
    OtherVersion = 2,
    /// 3: its table of contents is wrong, or it has over 1,048,576 labels.
    WrongContents = 3,
    /// 4: its length is not what its table of contents says.
    WrongLength = 4,
    /// 5: a label does not start before its end, or a list does not ascend by start.
    WrongLists = 5,
    /// 6: two labels share a number or cross, or 65 are nested.
    WrongNesting = 6,
    /// 7: the question has over 1,024 bytes.
    TooLong = 7,
    /// 8: the question does not follow the notation.
    NotFollowing = 8,
    /// 9: the question has over 32 steps or brackets over 8 deep.
    TooLarge = 9,
    /// 20: some start or end in the index, of any tag, has no entry in the times.
    NoEntry = 20,
    /// 21: an entry of the times, also one past the numbers in use, is smaller than the one before.
    TimesDescend = 21,
}

impl Refusal {
    const ALL: [Refusal; 11] = [
        Refusal::TooShort,
        Refusal::OtherVersion,
        Refusal::WrongContents,
        Refusal::WrongLength,
        Refusal::WrongLists,
        Refusal::WrongNesting,
        Refusal::TooLong,
        Refusal::NotFollowing,
        Refusal::TooLarge,
        Refusal::NoEntry,
        Refusal::TimesDescend,
    ];

    /// Its number in the table.
    pub fn number(self) -> u32 {
        self as u32
    }

    /// The reason in words.
    pub fn reason(self) -> &'static str {
        match self {
            Refusal::TooShort => "the index has fewer than 4 bytes",
            Refusal::OtherVersion => "the index has a version other than 1",
            Refusal::WrongContents => "the index has a wrong table of contents, or over 1,048,576 labels",
            Refusal::WrongLength => "the index has another length than its table of contents says",
            Refusal::WrongLists => "a label does not start before its end, or a list does not ascend by start",
            Refusal::WrongNesting => "two labels share a number or cross, or 65 are nested",
            Refusal::TooLong => "the question has over 1,024 bytes",
            Refusal::NotFollowing => "the question does not follow the notation",
            Refusal::TooLarge => "the question has over 32 steps or brackets over 8 deep",
            Refusal::NoEntry => "a start or end in the index has no entry in the times",
            Refusal::TimesDescend => "an entry of the times is smaller than the one before",
        }
    }

    /// What a call's number says. The library is proved to give no other number than 0 and these.
    pub(crate) fn unless_zero(number: u64) -> Result<(), Refusal> {
        if number == 0 {
            return Ok(());
        }
        match Refusal::ALL.iter().find(|refusal| u64::from(refusal.number()) == number) {
            Some(refusal) => Err(*refusal),
            None => unreachable!("the library gave the refusal {}, which the table of its calls does not have", number),
        }
    }
}

impl fmt::Display for Refusal {
    fn fmt(&self, f: &mut fmt::Formatter<'_>) -> fmt::Result {
        write!(f, "refused {}: {}", self.number(), self.reason())
    }
}

impl std::error::Error for Refusal {}
