//! A tray and its index, held together: what reads them needs no second slice.

use std::fmt;
use std::ops::RangeBounds;

use crate::{Cursor, KEY_SIZE, Key, Page, PageRefused, Points, Refusal, Stop, Value, calls};

/// A tray and its index, to read points from.
///
/// It borrows both and is as cheap to copy as two slices; any number of threads may read at once.
///
/// ```
/// use kanyorith::Reader;
///
/// let tray = std::fs::read("examples/sample.tray")?;
/// let index = std::fs::read("examples/sample.index")?;
/// let reader = Reader::open(&tray, &index)?;
///
/// assert!(reader.get(&[0, 0, 0, 0, 0, 7, 0, 2])?.is_some());
/// assert_eq!(reader.iter().count(), 2);
/// # Ok::<(), Box<dyn std::error::Error>>(())
/// ```
#[derive(Clone, Copy)]
pub struct Reader<'a> {
    tray: &'a [u8],
    index: &'a [u8],
}

impl<'a> Reader<'a> {
    /// A reader of a tray through an index.
    ///
    /// The library tests both frames (headers, counts and lengths, and that the index is for as many runs as the tray has), in a time
    /// that doesn't depend on how many records there are. So a file of another kind, one that is cut short, and two slices in the wrong
    /// order are refused here. What stands in records and segments is not looked at: [`check`](Self::check) does that.
    ///
    /// ```
    /// use kanyorith::{Reader, Refusal};
    ///
    /// let tray = std::fs::read("examples/sample.tray")?;
    /// let index = std::fs::read("examples/sample.index")?;
    /// assert!(Reader::open(&tray, &index).is_ok());
    /// assert_eq!(Reader::open(&index, &tray).unwrap_err(), Refusal::TrayFrame);
    /// assert_eq!(Reader::open(&tray, &index[..20]).unwrap_err(), Refusal::IndexFrame);
    /// # Ok::<(), Box<dyn std::error::Error>>(())
    /// ```
    ///
    /// # Errors
    /// [`TrayFrame`](Refusal::TrayFrame), [`IndexFrame`](Refusal::IndexFrame). Once a reader is open, none of its calls gives these.
    pub fn open(tray: &'a [u8], index: &'a [u8]) -> Result<Self, Refusal> {
        // A sheet tests the frames first and its prefix next: one of nine bytes is refused before anything is followed.
        match calls::sheet(tray, index, &[0; KEY_SIZE + 1], &mut []) {
            Err(refusal @ (Refusal::TrayFrame | Refusal::IndexFrame)) => Err(refusal),
            _ => Ok(Reader { tray, index }),
        }
    }

    /// The tray's bytes.
    ///
    /// ```
    /// # let tray = std::fs::read("examples/sample.tray")?;
    /// # let index = std::fs::read("examples/sample.index")?;
    /// # let reader = kanyorith::Reader::open(&tray, &index)?;
    /// assert_eq!(kanyorith::check_tray(reader.tray()), Ok(3));
    /// # Ok::<(), Box<dyn std::error::Error>>(())
    /// ```
    pub fn tray(&self) -> &'a [u8] {
        self.tray
    }

    /// The index's bytes.
    ///
    /// ```
    /// # let tray = std::fs::read("examples/sample.tray")?;
    /// # let index = std::fs::read("examples/sample.index")?;
    /// # let reader = kanyorith::Reader::open(&tray, &index)?;
    /// assert_eq!(reader.index().len(), 24);
    /// # Ok::<(), Box<dyn std::error::Error>>(())
    /// ```
    pub fn index(&self) -> &'a [u8] {
        self.index
    }

    /// Checks the whole tray and the whole index, and answers how many segments the index has.
    ///
    /// Where it accepts them, reading gives exactly the points whose newest version is live, and no walk is lost. It reads every record
    /// once: worth its time when a file comes from elsewhere, and needless for an index that was just built.
    ///
    /// ```
    /// use kanyorith::{Reader, Refusal};
    ///
    /// let tray = std::fs::read("examples/sample.tray")?;
    /// let mut index = std::fs::read("examples/sample.index")?;
    /// assert_eq!(Reader::open(&tray, &index)?.check(), Ok(1));
    /// index[21] = 0x01; // the old version of a point no longer bears its mark
    /// assert_eq!(Reader::open(&tray, &index)?.check(), Err(Refusal::Segment { segment: 0 }));
    /// # Ok::<(), Box<dyn std::error::Error>>(())
    /// ```
    ///
    /// # Errors
    /// The first wrong record, [`RecordKind`](Refusal::RecordKind) before [`KeyOrder`](Refusal::KeyOrder) at one record; then
    /// [`Segment`](Refusal::Segment).
    pub fn check(&self) -> Result<u64, Refusal> {
        calls::check_index(self.tray, self.index)
    }

    /// The value of a key, or none where the key is absent.
    ///
    /// ```
    /// # let tray = std::fs::read("examples/sample.tray")?;
    /// # let index = std::fs::read("examples/sample.index")?;
    /// # let reader = kanyorith::Reader::open(&tray, &index)?;
    /// assert!(reader.get(&[0, 0, 0, 0, 0, 7, 0, 2])?.is_some());
    /// assert!(reader.get(&[0, 0, 0, 0, 0, 7, 0, 3])?.is_none());
    /// # Ok::<(), Box<dyn std::error::Error>>(())
    /// ```
    ///
    /// # Errors
    /// [`Lost`](Refusal::Lost).
    pub fn get(&self, key: &Key) -> Result<Option<Value>, Refusal> {
        calls::get(self.tray, self.index, key)
    }

    /// The points whose keys lie between two bounds, in key order.
    ///
    /// Nothing is read until the first point is asked for. Bounds that no key lies between give no points.
    ///
    /// ```
    /// # let tray = std::fs::read("examples/sample.tray")?;
    /// # let index = std::fs::read("examples/sample.index")?;
    /// # let reader = kanyorith::Reader::open(&tray, &index)?;
    /// let first = [0, 0, 0, 0, 0, 7, 0, 1];
    /// let last = [0, 0, 0, 0, 0, 7, 0, 2];
    /// assert_eq!(reader.range(first..=last).count(), 2);
    /// assert_eq!(reader.range(first..last).count(), 1);
    /// let point = reader.range(last..).next().expect("a point is there")?;
    /// assert_eq!((point.number(), point.column()), (2, 101));
    /// # Ok::<(), Box<dyn std::error::Error>>(())
    /// ```
    pub fn range(&self, bounds: impl RangeBounds<Key>) -> Points<'a> {
        Points::between(*self, bounds.start_bound(), bounds.end_bound())
    }

    /// The points whose keys begin with a prefix, in key order: those of a sheet for a prefix of 6 bytes. It gives what
    /// [`sheet`](Self::sheet) lists, and needs no room for all of it.
    ///
    /// ```
    /// # let tray = std::fs::read("examples/sample.tray")?;
    /// # let index = std::fs::read("examples/sample.index")?;
    /// # let reader = kanyorith::Reader::open(&tray, &index)?;
    /// let mut points = reader.prefix(&[0, 0, 0, 0, 0, 7])?;
    /// let first = points.next().expect("the sheet has points")?;
    /// assert_eq!((first.number(), first.column(), first.row()), (1, 800, 400));
    /// assert_eq!(points.count(), 1);
    /// # Ok::<(), Box<dyn std::error::Error>>(())
    /// ```
    ///
    /// # Errors
    /// [`PrefixLength`](Refusal::PrefixLength) for a prefix of no byte or of more than 8, [`PrefixEnd`](Refusal::PrefixEnd) for one that
    /// ends in 255; [`range`](Self::range) can list these too. A lost walk is an item of the iterator.
    pub fn prefix(&self, prefix: &[u8]) -> Result<Points<'a>, Refusal> {
        Points::with_prefix(*self, prefix)
    }

    /// All points, in key order.
    ///
    /// ```
    /// # let tray = std::fs::read("examples/sample.tray")?;
    /// # let index = std::fs::read("examples/sample.index")?;
    /// # let reader = kanyorith::Reader::open(&tray, &index)?;
    /// let mut numbers = Vec::new();
    /// for point in reader {
    ///     numbers.push(point?.number());
    /// }
    /// assert_eq!(numbers, [1, 2]);
    /// assert_eq!(reader.iter().count(), 2);
    /// # Ok::<(), Box<dyn std::error::Error>>(())
    /// ```
    pub fn iter(&self) -> Points<'a> {
        self.range(..)
    }

    /// The first visible record at or above the key.
    ///
    /// ```
    /// # let tray = std::fs::read("examples/sample.tray")?;
    /// # let index = std::fs::read("examples/sample.index")?;
    /// # let reader = kanyorith::Reader::open(&tray, &index)?;
    /// use kanyorith::{Place, RunNo};
    ///
    /// assert_eq!(reader.seek(&[0; 8])?.record, Some((RunNo(0), Place(0))));
    /// assert_eq!(reader.seek(&[255; 8])?.record, None);
    /// # Ok::<(), Box<dyn std::error::Error>>(())
    /// ```
    ///
    /// # Errors
    /// [`Lost`](Refusal::Lost).
    pub fn seek(&self, key: &Key) -> Result<Stop, Refusal> {
        calls::seek(self.tray, self.index, key)
    }

    /// The first visible record after the cursor's own; from the end it gives the end.
    ///
    /// ```
    /// # let tray = std::fs::read("examples/sample.tray")?;
    /// # let index = std::fs::read("examples/sample.index")?;
    /// # let reader = kanyorith::Reader::open(&tray, &index)?;
    /// let mut stop = reader.seek(&[0; 8])?;
    /// let mut records = 0;
    /// while stop.record.is_some() {
    ///     records += 1;
    ///     stop = reader.next(&stop.cursor)?;
    /// }
    /// assert_eq!(records, 2);
    /// # Ok::<(), Box<dyn std::error::Error>>(())
    /// ```
    ///
    /// # Errors
    /// [`Cursor`](Refusal::Cursor), [`Lost`](Refusal::Lost).
    pub fn next(&self, cursor: &Cursor) -> Result<Stop, Refusal> {
        calls::next(self.tray, self.index, cursor)
    }

    /// Writes the visible records from the cursor on, 24 bytes each, until less than 24 bytes of `out` remain or the end comes, and moves
    /// the cursor to the first unwritten record.
    ///
    /// With room for one record, a page that isn't refused writes a record or says the end. With less it writes none, and moves the
    /// cursor to the first visible record.
    ///
    /// ```
    /// # let tray = std::fs::read("examples/sample.tray")?;
    /// # let index = std::fs::read("examples/sample.index")?;
    /// # let reader = kanyorith::Reader::open(&tray, &index)?;
    /// use kanyorith::listing;
    ///
    /// let mut cursor = reader.seek(&[0; 8])?.cursor;
    /// let mut out = [0; 24];
    /// let first = reader.page(&mut cursor, &mut out)?;
    /// assert_eq!((first.written, first.more), (1, true));
    /// let second = reader.page(&mut cursor, &mut out)?;
    /// assert_eq!((second.written, second.more), (1, false));
    /// assert_eq!(listing(&out).next().map(|point| point.number()), Some(2));
    /// # Ok::<(), Box<dyn std::error::Error>>(())
    /// ```
    ///
    /// # Errors
    /// [`Cursor`](Refusal::Cursor), [`Lost`](Refusal::Lost). A refused page leaves the cursor where it was; one that is lost keeps the
    /// records that it has written, and says how many.
    pub fn page(&self, cursor: &mut Cursor, out: &mut [u8]) -> Result<Page, PageRefused> {
        calls::page(self.tray, self.index, cursor, out)
    }

    /// Writes the visible records whose keys begin with the prefix, 24 bytes each, and answers how many.
    ///
    /// ```
    /// # let tray = std::fs::read("examples/sample.tray")?;
    /// # let index = std::fs::read("examples/sample.index")?;
    /// # let reader = kanyorith::Reader::open(&tray, &index)?;
    /// use kanyorith::Refusal;
    ///
    /// let mut out = [0; 48];
    /// assert_eq!(reader.sheet(&[0, 0, 0, 0, 0, 7], &mut out), Ok(2));
    /// assert_eq!(reader.sheet(&[0, 0, 0, 0, 0, 7], &mut out[..47]), Err(Refusal::Room { needed: 48 }));
    /// # Ok::<(), Box<dyn std::error::Error>>(())
    /// ```
    ///
    /// # Errors
    /// Those of [`prefix`](Self::prefix), then [`Lost`](Refusal::Lost), [`Room`](Refusal::Room). A refused sheet writes nothing.
    pub fn sheet(&self, prefix: &[u8], out: &mut [u8]) -> Result<usize, Refusal> {
        calls::sheet(self.tray, self.index, prefix, out)
    }
}

impl<'a> IntoIterator for Reader<'a> {
    type Item = Result<crate::Point, Refusal>;
    type IntoIter = Points<'a>;

    fn into_iter(self) -> Points<'a> {
        self.iter()
    }
}

impl<'a> IntoIterator for &Reader<'a> {
    type Item = Result<crate::Point, Refusal>;
    type IntoIter = Points<'a>;

    fn into_iter(self) -> Points<'a> {
        self.iter()
    }
}

/// The lengths, and not the bytes.
impl fmt::Debug for Reader<'_> {
    fn fmt(&self, f: &mut fmt::Formatter<'_>) -> fmt::Result {
        f.debug_struct("Reader")
            .field("tray", &format_args!("{} bytes", self.tray.len()))
            .field("index", &format_args!("{} bytes", self.index.len()))
            .finish()
    }
}
