//! Where a walk through an index stands, and what a step of it gives.

use std::fmt;

use crate::CURSOR_SIZE;

/// The number of a run. Run 0 is the newest. See [`Stop`] for an example.
#[derive(Clone, Copy, Debug, PartialEq, Eq, PartialOrd, Ord, Hash)]
pub struct RunNo(pub u8);

/// The place of a record in its run, from 0. See [`Stop`] for an example.
#[derive(Clone, Copy, Debug, PartialEq, Eq, PartialOrd, Ord, Hash)]
pub struct Place(pub u16);

/// Where a walk stands in an index: an opaque value that can be copied, kept, and used again with the same tray and index.
///
/// [`seek`](crate::Reader::seek) gives one; [`next`](crate::Reader::next) and [`page`](crate::Reader::page) go on from it. A cursor of
/// another index is refused by [`Refusal::Cursor`](crate::Refusal::Cursor), or stands where its numbers happen to fit.
#[derive(Clone, Copy, PartialEq, Eq, Hash)]
pub struct Cursor(pub(crate) [u16; CURSOR_SIZE]);

impl Cursor {
    /// The numbers of the cursor, to keep it outside of the program.
    ///
    /// ```
    /// use kanyorith::{Cursor, Reader};
    ///
    /// let tray = std::fs::read("examples/sample.tray")?;
    /// let index = std::fs::read("examples/sample.index")?;
    /// let cursor = Reader::open(&tray, &index)?.seek(&[0; 8])?.cursor;
    /// assert_eq!(Cursor::from_numbers(cursor.to_numbers()), cursor);
    /// # Ok::<(), Box<dyn std::error::Error>>(())
    /// ```
    pub fn to_numbers(self) -> [u16; CURSOR_SIZE] {
        self.0
    }

    /// The cursor of numbers that were kept. Any numbers will do: the calls refuse a cursor that doesn't belong to their index.
    ///
    /// ```
    /// use kanyorith::{Cursor, Reader, Refusal};
    ///
    /// let tray = std::fs::read("examples/sample.tray")?;
    /// let index = std::fs::read("examples/sample.index")?;
    /// let strange = Cursor::from_numbers([9; 66]);
    /// let refusal = Reader::open(&tray, &index)?.next(&strange).unwrap_err();
    /// assert_eq!(refusal, Refusal::Cursor { segment: 9 * 65_536 + 9 });
    /// # Ok::<(), Box<dyn std::error::Error>>(())
    /// ```
    pub fn from_numbers(numbers: [u16; CURSOR_SIZE]) -> Self {
        Cursor(numbers)
    }
}

impl fmt::Debug for Cursor {
    fn fmt(&self, f: &mut fmt::Formatter<'_>) -> fmt::Result {
        f.debug_struct("Cursor").finish_non_exhaustive()
    }
}

/// Where a seek or a move came to.
///
/// ```
/// use kanyorith::{Place, Reader, RunNo};
///
/// let tray = std::fs::read("examples/sample.tray")?;
/// let index = std::fs::read("examples/sample.index")?;
/// let reader = Reader::open(&tray, &index)?;
/// let stop = reader.seek(&[0, 0, 0, 0, 0, 7, 0, 2])?;
/// assert_eq!(stop.record, Some((RunNo(1), Place(1))));
/// assert_eq!(reader.next(&stop.cursor)?.record, None);
/// # Ok::<(), Box<dyn std::error::Error>>(())
/// ```
#[derive(Clone, Copy, Debug, PartialEq, Eq)]
pub struct Stop {
    /// Run and place of the visible record there; none at the end.
    pub record: Option<(RunNo, Place)>,
    /// The cursor there, to go on from.
    pub cursor: Cursor,
}

/// A page that was not refused. See [`Reader::page`](crate::Reader::page) for an example.
#[derive(Clone, Copy, Debug, PartialEq, Eq)]
pub struct Page {
    /// How many records it wrote, 24 bytes each.
    pub written: usize,
    /// Whether a visible record is left after them.
    pub more: bool,
}
