//! All records of a question, page by page.

use crate::steps::steps_if_accepted;
use crate::{answer, evidence, Refusal};

/// The rows of one page.
#[derive(Clone, Debug, PartialEq, Eq)]
pub struct Rows {
    width: usize,
    positions: Vec<u32>,
}

impl Rows {
    /// How many rows there are.
    pub fn len(&self) -> usize {
        self.positions.len() / self.width
    }

    /// Whether there are none.
    pub fn is_empty(&self) -> bool {
        self.positions.is_empty()
    }

    /// How many list positions a row has: 1 for the answer call, the number of steps for the evidence call.
    pub fn width(&self) -> usize {
        self.width
    }

    /// The rows in order, each a part of as many list positions as [`Rows::width`] says.
    pub fn iter(&self) -> std::slice::ChunksExact<'_, u32> {
        self.positions.chunks_exact(self.width)
    }
}

impl<'a> IntoIterator for &'a Rows {
    type Item = &'a [u32];
    type IntoIter = std::slice::ChunksExact<'a, u32>;

    fn into_iter(self) -> Self::IntoIter {
        self.iter()
    }
}

/// Which of the two calls for rows.
#[derive(Clone, Copy, Debug)]
enum Call {
    Answer,
    Evidence,
}

/// The pages of a question to the last record, each from the place where the page before it ended. The first begins at place 0, or where
/// [`Pages::starting_at`] says.
///
/// A refusal is given once, and nothing after it. A walk on which no record is left gives no page. Neither does one whose question has a
/// misspelled name: [`Pages::unknown`] tells the two apart.
#[derive(Clone, Debug)]
pub struct Pages<'a> {
    call: Call,
    index: &'a [u8],
    question: &'a [u8],
    width: usize,
    room: usize,
    /// Where the next page begins, or nothing when the walk has ended.
    place: Option<u32>,
    /// What the last page said of the first unknown step, or the refusal in its place; nothing before the first page.
    unknown: Option<Result<Option<usize>, Refusal>>,
}

/// The list positions of all returned records, on pages of at most `room` rows. A room of 0 counts as 1.
///
/// ```
/// let index = days::small_day().to_bytes();
/// let mut found = Vec::new();
/// for page in roadthrum::answer_pages(&index, b"//call[//board]", 3) {
///     let rows = page?;
///     found.push(rows.iter().map(|row| row[0]).collect::<Vec<u32>>());
/// }
/// assert_eq!(found, [vec![0, 1, 2], vec![3]]);
/// # Ok::<(), roadthrum::Refusal>(())
/// ```
pub fn answer_pages<'a>(index: &'a [u8], question: &'a [u8], room: usize) -> Pages<'a> {
    Pages::of(Call::Answer, index, question, 1, room)
}

/// The evidence of all returned records, on pages of at most `room` rows. A room of 0 counts as 1.
///
/// ```
/// let index = days::small_day().to_bytes();
/// let mut rows = Vec::new();
/// for page in roadthrum::evidence_pages(&index, b"//call[//board]", 2) {
///     rows.extend(page?.iter().map(<[u32]>::to_vec));
/// }
/// assert_eq!(rows, [[0, 0], [1, 0], [2, 0], [3, 1]]);
///
/// // A refusal is the only thing that such a walk gives.
/// let refused: Vec<_> = roadthrum::evidence_pages(&index, b"//call[]", 2).collect();
/// assert_eq!(refused, [Err(roadthrum::Refusal::NotFollowing)]);
/// # Ok::<(), roadthrum::Refusal>(())
/// ```
pub fn evidence_pages<'a>(index: &'a [u8], question: &'a [u8], room: usize) -> Pages<'a> {
    // Of a question that is refused the number is never used, since there are no rows. The limits keep its buffer small.
    let width = steps_if_accepted(question).clamp(1, MOST_STEPS);
    Pages::of(Call::Evidence, index, question, width, room)
}

/// The most steps that a question has.
const MOST_STEPS: usize = 32;

impl<'a> Pages<'a> {
    /// A walk from place 0. No page needs more room than the index has labels of 8 bytes.
    fn of(call: Call, index: &'a [u8], question: &'a [u8], width: usize, room: usize) -> Pages<'a> {
        Pages { call, index, question, width, room: room.clamp(1, 1 + index.len() / 8), place: Some(0), unknown: None }
    }

    /// The same walk with its next page at this place: the records of that page and of those after it are the returned ones at list
    /// position `place` or later. Any number is a place; it need not be that of a returned record, and from one behind the last of them
    /// there is no page.
    ///
    /// ```
    /// use roadthrum::answer_pages;
    ///
    /// // The calls with a boarding inside are at the positions 0 to 3.
    /// let index = days::small_day().to_bytes();
    /// let positions = |place| -> Result<Vec<u32>, roadthrum::Refusal> {
    ///     let mut found = Vec::new();
    ///     for page in answer_pages(&index, b"//call[//board]", 2).starting_at(place) {
    ///         found.extend(page?.iter().map(|row| row[0]));
    ///     }
    ///     Ok(found)
    /// };
    /// assert_eq!(positions(0)?, [0, 1, 2, 3]);
    /// assert_eq!(positions(1)?, [1, 2, 3]);
    /// assert_eq!(positions(9)?, []);
    ///
    /// // A walk that is left can be gone on with later.
    /// let mut pages = answer_pages(&index, b"//call[//board]", 3);
    /// pages.next();
    /// let place = pages.place().expect("a further record remains");
    /// assert_eq!(positions(place)?, [3]);
    /// # Ok::<(), roadthrum::Refusal>(())
    /// ```
    pub fn starting_at(mut self, place: u32) -> Pages<'a> {
        self.place = Some(place);
        self
    }

    /// Where the next page begins, or nothing when the walk has ended: after a refusal, or when no further record remains.
    pub fn place(&self) -> Option<u32> {
        self.place
    }

    /// The first step whose name has no row in the index, or nothing if each has one, as in [`Page`](crate::Page). It is the same wherever
    /// the walk stands and wherever it began. After a page was asked for it costs nothing; before that the library is asked for it, which
    /// checks the index.
    ///
    /// ```
    /// use roadthrum::{evidence_pages, Refusal};
    ///
    /// let index = days::small_day().to_bytes();
    /// let mut pages = evidence_pages(&index, b"//call[//cancle]", 10);
    /// assert_eq!(pages.next(), None);
    /// // No page, but that says nothing of cancellations: the name of step 1 is unknown.
    /// assert_eq!(pages.unknown(), Ok(Some(1)));
    ///
    /// let mut pages = evidence_pages(&index, b"//cancel//board", 10);
    /// assert_eq!(pages.next(), None);
    /// // Both names are known, and nobody boards inside a cancellation.
    /// assert_eq!(pages.unknown(), Ok(None));
    ///
    /// // A question that is refused has no steps.
    /// assert_eq!(evidence_pages(&index, b"//call[]", 10).unknown(), Err(Refusal::NotFollowing));
    /// ```
    pub fn unknown(&self) -> Result<Option<usize>, Refusal> {
        // No room, and a place behind every record, so that none has to be found.
        self.unknown.unwrap_or_else(|| answer(self.index, self.question, u32::MAX, &mut []).map(|page| page.unknown))
    }
}

impl Iterator for Pages<'_> {
    type Item = Result<Rows, Refusal>;

    fn next(&mut self) -> Option<Self::Item> {
        let place = self.place.take()?;
        let call = match self.call {
            Call::Answer => answer,
            Call::Evidence => evidence,
        };
        let mut positions = vec![0; self.room * self.width];
        let given = call(self.index, self.question, place, &mut positions);
        self.unknown = Some(given.map(|page| page.unknown));
        let page = match given {
            Ok(page) => page,
            Err(refusal) => return Some(Err(refusal)),
        };
        if page.more {
            self.place = Some(page.next);
        }
        if page.rows == 0 {
            return None;
        }
        positions.truncate(page.rows * self.width);
        Some(Ok(Rows { width: self.width, positions }))
    }
}
