//! The refusals of the library as typed errors.

use std::error::Error;
use std::fmt;

use crate::raw::Answer;

/// Why a call was refused. Each case has its number and figure in the refusal table of `include/kanyorith.h`, and a sentence.
///
/// ```
/// use kanyorith::{Refusal, check_tray};
///
/// let refusal = check_tray(b"no tray").unwrap_err();
/// assert_eq!(refusal, Refusal::TrayFrame);
/// assert_eq!((refusal.number(), refusal.figure()), (1, 0));
/// assert_eq!(refusal.to_string(), "the tray breaks the header, count or length rules");
/// ```
///
/// Later versions may have more cases, so a `match` needs a last arm for all others.
#[derive(Clone, Copy, Debug, PartialEq, Eq, Hash)]
#[non_exhaustive]
pub enum Refusal {
    /// 1: the tray breaks the header, count or length rules.
    TrayFrame,
    /// 2: a key is not above the one before it in its run.
    KeyOrder {
        /// The record, counted over the tray.
        record: u64,
    },
    /// 3: a kind is above 1, or a gone record has a value.
    RecordKind {
        /// The record, counted over the tray.
        record: u64,
    },
    /// 4: the index breaks the header or length rules, or is for another number of runs.
    IndexFrame,
    /// 5: the index is not accepted.
    Segment {
        /// The first wrong segment, or the number of segments where records are left over.
        segment: u64,
    },
    /// 6: the segment size asked for is outside the number of runs to 128.
    SegmentSize {
        /// The size asked for.
        d: u64,
    },
    /// 7: the output is too short.
    Room {
        /// The bytes needed.
        needed: u64,
    },
    /// 8, from a fold: the first run to fold is above the last, or the tray has no such run.
    FoldBounds {
        /// The last run asked for.
        last: u64,
    },
    /// 8, from a listing: a prefix has 1 to 8 bytes, and this one has none or more.
    PrefixLength {
        /// The length of the prefix.
        length: u64,
    },
    /// 9: the last byte of the prefix is 255.
    PrefixEnd {
        /// The length of the prefix.
        length: u64,
    },
    /// 10: the walk is lost, at a selector that names a run or a place that is not there.
    Lost {
        /// The segment.
        segment: u64,
        /// The selector in it.
        selector: u64,
    },
    /// 11: the cursor does not belong to this index.
    Cursor {
        /// The cursor's segment.
        segment: u64,
    },
    /// 12: the folded run would have more than 4,096 records.
    RunLength {
        /// How many it would have.
        count: u64,
    },
}

impl Refusal {
    /// The number in the refusal table.
    pub fn number(&self) -> u32 {
        match self {
            Refusal::TrayFrame => 1,
            Refusal::KeyOrder { .. } => 2,
            Refusal::RecordKind { .. } => 3,
            Refusal::IndexFrame => 4,
            Refusal::Segment { .. } => 5,
            Refusal::SegmentSize { .. } => 6,
            Refusal::Room { .. } => 7,
            Refusal::FoldBounds { .. } | Refusal::PrefixLength { .. } => 8,
            Refusal::PrefixEnd { .. } => 9,
            Refusal::Lost { .. } => 10,
            Refusal::Cursor { .. } => 11,
            Refusal::RunLength { .. } => 12,
        }
    }

    /// The figure that the refusal table gives with the number.
    pub fn figure(&self) -> u64 {
        match *self {
            Refusal::TrayFrame | Refusal::IndexFrame => 0,
            Refusal::KeyOrder { record } | Refusal::RecordKind { record } => record,
            Refusal::Segment { segment } | Refusal::Cursor { segment } => segment,
            Refusal::SegmentSize { d } => d,
            Refusal::Room { needed } => needed,
            Refusal::FoldBounds { last } => last,
            Refusal::PrefixLength { length } | Refusal::PrefixEnd { length } => length,
            Refusal::Lost { segment, selector } => segment * 128 + selector,
            Refusal::RunLength { count } => count,
        }
    }
}

impl fmt::Display for Refusal {
    fn fmt(&self, f: &mut fmt::Formatter<'_>) -> fmt::Result {
        match self {
            Refusal::TrayFrame => f.write_str("the tray breaks the header, count or length rules"),
            Refusal::KeyOrder { record } => write!(f, "the key of record {record} is not above the one before it"),
            Refusal::RecordKind { record } => {
                write!(f, "the kind of record {record} is above 1, or it is gone and has a value")
            }
            Refusal::IndexFrame => {
                f.write_str("the index breaks the header or length rules, or is for another number of runs")
            }
            Refusal::Segment { segment } => {
                write!(f, "the index is not accepted: segment {segment} is wrong or missing")
            }
            Refusal::SegmentSize { d } => write!(f, "the segment size {d} is outside the number of runs to 128"),
            Refusal::Room { needed } => write!(f, "the output is too short: {needed} bytes are needed"),
            Refusal::FoldBounds { last } => {
                write!(f, "the runs to fold are out of bounds: the last is {last}")
            }
            Refusal::PrefixLength { length } => {
                write!(f, "the prefix has {length} bytes, and must have 1 to 8")
            }
            Refusal::PrefixEnd { length } => write!(f, "the last byte of the prefix, of {length} bytes, is 255"),
            Refusal::Lost { segment, selector } => {
                write!(f, "the walk is lost: selector {selector} of segment {segment} names no record")
            }
            Refusal::Cursor { segment } => {
                write!(f, "the cursor, in segment {segment}, does not belong to this index")
            }
            Refusal::RunLength { count } => write!(f, "the folded run would have {count} records, more than 4,096"),
        }
    }
}

impl Error for Refusal {}

/// A refused page: it keeps the records that it wrote before its walk was lost.
///
/// Where these are of no use, `?` turns it into its [`Refusal`].
///
/// ```
/// use kanyorith::{PageRefused, Reader, Refusal, listing};
///
/// let tray = std::fs::read("examples/sample.tray")?;
/// let mut index = std::fs::read("examples/sample.index")?;
/// index[22] = 0x05; // the third selector names a run that is not there
/// let reader = Reader::open(&tray, &index)?;
/// let mut cursor = reader.seek(&[0; 8])?.cursor;
/// let mut out = [0; 48];
/// let PageRefused { written, refusal } = reader.page(&mut cursor, &mut out).unwrap_err();
/// assert_eq!(refusal, Refusal::Lost { segment: 0, selector: 2 });
/// assert_eq!(listing(&out[..24 * written]).count(), 1);
/// # Ok::<(), Box<dyn std::error::Error>>(())
/// ```
#[derive(Clone, Copy, Debug, PartialEq, Eq, Hash)]
pub struct PageRefused {
    /// How many records stand in the output; 0 for each refusal but [`Refusal::Lost`].
    pub written: usize,
    /// Why the page was refused.
    pub refusal: Refusal,
}

impl fmt::Display for PageRefused {
    fn fmt(&self, f: &mut fmt::Formatter<'_>) -> fmt::Result {
        write!(f, "after {} records: {}", self.written, self.refusal)
    }
}

impl Error for PageRefused {
    fn source(&self) -> Option<&(dyn Error + 'static)> {
        Some(&self.refusal)
    }
}

impl From<PageRefused> for Refusal {
    fn from(refused: PageRefused) -> Self {
        refused.refusal
    }
}

/// What number 8 means to the call that gave it: the one number of the table with two meanings.
#[derive(Clone, Copy)]
pub(crate) enum Bounds {
    /// The runs of a fold.
    Runs,
    /// The length of a prefix.
    Prefix,
    /// The call has no bounds to refuse.
    None,
}

/// A call's figure, or its refusal.
pub(crate) fn figure(answer: Answer, bounds: Bounds) -> Result<u64, Refusal> {
    let Answer { number, figure } = answer;
    Err(match (number, bounds) {
        (0, _) => return Ok(figure),
        (1, _) => Refusal::TrayFrame,
        (2, _) => Refusal::KeyOrder { record: figure },
        (3, _) => Refusal::RecordKind { record: figure },
        (4, _) => Refusal::IndexFrame,
        (5, _) => Refusal::Segment { segment: figure },
        (6, _) => Refusal::SegmentSize { d: figure },
        (7, _) => Refusal::Room { needed: figure },
        (8, Bounds::Runs) => Refusal::FoldBounds { last: figure },
        (8, Bounds::Prefix) => Refusal::PrefixLength { length: figure },
        (9, _) => Refusal::PrefixEnd { length: figure },
        (10, _) => Refusal::Lost { segment: figure / 128, selector: figure % 128 },
        (11, _) => Refusal::Cursor { segment: figure },
        (12, _) => Refusal::RunLength { count: figure },
        _ => unreachable!("the library gives numbers of its table only, and not {number}"),
    })
}
