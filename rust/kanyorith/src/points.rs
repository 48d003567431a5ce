//! Points in key order, a page at a time.

use std::fmt;
use std::iter::FusedIterator;
use std::ops::Bound;

use crate::point::listed;
use crate::{Cursor, KEY_SIZE, Key, LISTED_SIZE, Point, Reader, Refusal};

/// How many records a page underneath holds: a sheet of common size comes in one.
const PAGE: usize = 256;

/// An iterator over points in key order, made by [`Reader::range`], [`Reader::prefix`] and [`Reader::iter`]. It holds one page of points,
/// and no more.
///
/// ```
/// use kanyorith::{Point, Reader, Refusal};
///
/// let tray = std::fs::read("examples/sample.tray")?;
/// let index = std::fs::read("examples/sample.index")?;
/// let points: Result<Vec<Point>, Refusal> = Reader::open(&tray, &index)?.iter().collect();
/// assert_eq!(points?.len(), 2);
/// # Ok::<(), Box<dyn std::error::Error>>(())
/// ```
///
/// A lost walk is an item, once, after the points before it, and ends the iteration. Through an accepted index no walk is lost; through
/// another the points are those of the walk, up to the first key past the range.
#[derive(Clone)]
pub struct Points<'a> {
    reader: Reader<'a>,
    /// The first key that is past the points; none where they go to the end.
    bound: Option<Key>,
    held: Vec<u8>,
    taken: usize,
    ahead: Ahead,
}

/// What follows the records of the page that is held.
#[derive(Clone, Copy)]
enum Ahead {
    Seek(Key),
    Page(Cursor),
    Refused(Refusal),
    End,
}

impl<'a> Points<'a> {
    /// The points from one bound to another.
    pub(crate) fn between(reader: Reader<'a>, from: Bound<&Key>, to: Bound<&Key>) -> Self {
        let from = match from {
            Bound::Included(key) => Some(*key),
            Bound::Excluded(key) => after(key),
            Bound::Unbounded => Some([0; KEY_SIZE]),
        };
        let bound = match to {
            Bound::Included(key) => after(key),
            Bound::Excluded(key) => Some(*key),
            Bound::Unbounded => None,
        };
        let ahead = match from {
            Some(from) if bound.is_none_or(|bound| from < bound) => Ahead::Seek(from),
            _ => Ahead::End,
        };
        Points { reader, bound, held: Vec::new(), taken: 0, ahead }
    }

    /// The points with a prefix, or the library's refusal of it.
    pub(crate) fn with_prefix(reader: Reader<'a>, prefix: &[u8]) -> Result<Self, Refusal> {
        let Some((from, to)) = bounds(prefix) else {
            reader.sheet(prefix, &mut [])?;
            unreachable!("sheet refuses every prefix without bounds");
        };
        Ok(Points::between(reader, Bound::Included(&from), Bound::Excluded(&to)))
    }

    /// Reads the page at the cursor, and says what follows it.
    fn turn(&mut self, mut cursor: Cursor) -> Ahead {
        self.held.resize(PAGE * LISTED_SIZE, 0);
        self.taken = 0;
        let (written, ahead) = match self.reader.page(&mut cursor, &mut self.held) {
            Ok(page) => (page.written, if page.more { Ahead::Page(cursor) } else { Ahead::End }),
            Err(refused) => (refused.written, Ahead::Refused(refused.refusal)),
        };
        self.held.truncate(written * LISTED_SIZE);
        ahead
    }

    /// The next point of the page that is held.
    fn take(&mut self) -> Option<Point> {
        let record = self.held[self.taken..].first_chunk()?;
        self.taken += LISTED_SIZE;
        Some(listed(record))
    }

    fn finish(&mut self) {
        self.held.clear();
        self.taken = 0;
        self.ahead = Ahead::End;
    }
}

/// The key after a key; none after the last.
fn after(key: &Key) -> Option<Key> {
    u64::from_be_bytes(*key).checked_add(1).map(u64::to_be_bytes)
}

/// The first key with the prefix, and the first key past those.
fn bounds(prefix: &[u8]) -> Option<(Key, Key)> {
    let last = prefix.len().checked_sub(1)?;
    let mut from = [0; KEY_SIZE];
    from.get_mut(..=last)?.copy_from_slice(prefix);
    let mut to = from;
    to[last] = to[last].checked_add(1)?;
    Some((from, to))
}

impl Iterator for Points<'_> {
    type Item = Result<Point, Refusal>;

    fn next(&mut self) -> Option<Self::Item> {
        loop {
            if let Some(point) = self.take() {
                if self.bound.is_some_and(|bound| point.key >= bound) {
                    self.finish();
                    return None;
                }
                return Some(Ok(point));
            }
            self.ahead = match self.ahead {
                Ahead::Seek(key) => match self.reader.seek(&key) {
                    Ok(stop) => Ahead::Page(stop.cursor),
                    Err(refusal) => Ahead::Refused(refusal),
                },
                Ahead::Page(cursor) => self.turn(cursor),
                Ahead::Refused(refusal) => {
                    self.finish();
                    return Some(Err(refusal));
                }
                Ahead::End => return None,
            }
        }
    }
}

impl FusedIterator for Points<'_> {}

/// What is read, and not the points that are held.
impl fmt::Debug for Points<'_> {
    fn fmt(&self, f: &mut fmt::Formatter<'_>) -> fmt::Result {
        f.debug_struct("Points").field("reader", &self.reader).finish_non_exhaustive()
    }
}
