//! The calls of the C interface, one function each, with values and refusals for answers; and two that make room themselves.

use crate::refusal::{Bounds, figure};
use crate::{
    CURSOR_SIZE, Cursor, KEY_SIZE, Key, MOST_RUNS, MOST_SELECTORS, Page, PageRefused, Place, RECORD_SIZE, Refusal,
    RunNo, Stop, VALUE_SIZE, Value, raw,
};

/// How many records a sound tray has.
///
/// ```
/// use kanyorith::{Refusal, check_tray};
///
/// let mut tray = std::fs::read("examples/sample.tray")?;
/// assert_eq!(check_tray(&tray), Ok(3));
/// tray[16] = 2; // the kind of the first record
/// assert_eq!(check_tray(&tray), Err(Refusal::RecordKind { record: 0 }));
/// # Ok::<(), Box<dyn std::error::Error>>(())
/// ```
///
/// # Errors
/// [`TrayFrame`](Refusal::TrayFrame); then the first wrong record in tray order, [`RecordKind`](Refusal::RecordKind) before
/// [`KeyOrder`](Refusal::KeyOrder) at one record.
pub fn check_tray(tray: &[u8]) -> Result<u64, Refusal> {
    figure(raw::check_tray(tray), Bounds::None)
}

/// How many segments an index has that follows the rules for the tray. [`Reader::check`](crate::Reader::check) is the same.
///
/// ```
/// use kanyorith::{Refusal, build_vec, check_index};
///
/// let tray = std::fs::read("examples/sample.tray")?;
/// let mut index = build_vec(&tray, 4)?;
/// assert_eq!(check_index(&tray, &index), Ok(1));
/// index[21] = 0x01; // the old version of a point no longer bears its mark
/// assert_eq!(check_index(&tray, &index), Err(Refusal::Segment { segment: 0 }));
/// # Ok::<(), Box<dyn std::error::Error>>(())
/// ```
///
/// # Errors
/// Those of [`check_tray`]; then [`IndexFrame`](Refusal::IndexFrame), [`Segment`](Refusal::Segment).
pub fn check_index(tray: &[u8], index: &[u8]) -> Result<u64, Refusal> {
    figure(raw::check_index(tray, index), Bounds::None)
}

/// Writes the index of a tray with segments of `d` selectors to the front of `out`, and answers its length in bytes.
///
/// ```
/// use kanyorith::{Refusal, build};
///
/// let tray = std::fs::read("examples/sample.tray")?;
/// let mut out = [0; 32];
/// assert_eq!(build(&tray, 4, &mut out), Ok(24));
/// assert_eq!(out[..24], std::fs::read("examples/sample.index")?);
/// assert_eq!(build(&tray, 4, &mut out[..23]), Err(Refusal::Room { needed: 24 }));
/// # Ok::<(), Box<dyn std::error::Error>>(())
/// ```
///
/// # Errors
/// [`TrayFrame`](Refusal::TrayFrame), [`SegmentSize`](Refusal::SegmentSize), then the first wrong record as in [`check_tray`], then
/// [`Room`](Refusal::Room). A refused build writes nothing.
pub fn build(tray: &[u8], d: u64, out: &mut [u8]) -> Result<usize, Refusal> {
    figure(raw::build(tray, d, out), Bounds::None).map(size)
}

/// The index of a tray with segments of `d` selectors.
///
/// ```
/// use kanyorith::{Reader, build_vec};
///
/// let tray = std::fs::read("examples/sample.tray")?;
/// let index = build_vec(&tray, 64)?;
/// assert_eq!(Reader::open(&tray, &index)?.check(), Ok(1));
/// # Ok::<(), Box<dyn std::error::Error>>(())
/// ```
///
/// # Errors
/// Those of [`build`] but [`Room`](Refusal::Room).
pub fn build_vec(tray: &[u8], d: u64) -> Result<Vec<u8>, Refusal> {
    let mut index = vec![0; index_bound(tray, d)];
    match build(tray, d, &mut index) {
        Err(Refusal::Room { needed }) => {
            index = vec![0; size(needed)];
            build(tray, d, &mut index)?;
        }
        written => index.truncate(written?),
    }
    Ok(index)
}

/// Room that is enough for the index of a tray: half of its segments rounded down, times `d` + 1, is at most the records.
///
/// Build merges once where it has this room, and twice where it has less. For arguments that build refuses it is 0.
///
/// ```
/// use kanyorith::{build, index_bound};
///
/// let tray = std::fs::read("examples/sample.tray")?;
/// let mut out = vec![0; index_bound(&tray, 64)];
/// assert!(build(&tray, 64, &mut out)? <= out.len());
/// assert_eq!(index_bound(&tray, 129), 0);
/// # Ok::<(), Box<dyn std::error::Error>>(())
/// ```
pub fn index_bound(tray: &[u8], d: u64) -> usize {
    let h = usize::from(tray.first().copied().unwrap_or(0));
    let d = usize::try_from(d).unwrap_or(usize::MAX);
    if !(1..=MOST_RUNS).contains(&h) || !(h..=MOST_SELECTORS).contains(&d) {
        return 0;
    }
    let records = tray.len().saturating_sub(4 + 2 * h) / RECORD_SIZE;
    8 + (2 * (records / (d + 1)) + 1) * (KEY_SIZE + 2 * h + d)
}

/// The value of a key, or none where the key is absent. [`Reader::get`](crate::Reader::get) is the same.
///
/// ```
/// use kanyorith::{build_vec, get};
///
/// let tray = std::fs::read("examples/sample.tray")?;
/// let index = build_vec(&tray, 4)?;
/// assert!(get(&tray, &index, &[0, 0, 0, 0, 0, 7, 0, 2])?.is_some());
/// assert!(get(&tray, &index, &[0, 0, 0, 0, 0, 7, 0, 3])?.is_none());
/// # Ok::<(), Box<dyn std::error::Error>>(())
/// ```
///
/// # Errors
/// [`TrayFrame`](Refusal::TrayFrame), [`IndexFrame`](Refusal::IndexFrame), [`Lost`](Refusal::Lost).
pub fn get(tray: &[u8], index: &[u8], key: &Key) -> Result<Option<Value>, Refusal> {
    let mut value = [0; VALUE_SIZE];
    let found = figure(raw::get(tray, index, key, &mut value), Bounds::None)?;
    Ok((found == 1).then_some(value))
}

/// The first visible record at or above the key. [`Reader::seek`](crate::Reader::seek) is the same.
///
/// ```
/// use kanyorith::{Place, RunNo, build_vec, next, seek};
///
/// let tray = std::fs::read("examples/sample.tray")?;
/// let index = build_vec(&tray, 4)?;
/// let first = seek(&tray, &index, &[0; 8])?;
/// assert_eq!(first.record, Some((RunNo(0), Place(0))));
/// let second = next(&tray, &index, &first.cursor)?;
/// assert_eq!(second.record, Some((RunNo(1), Place(1))));
/// let end = next(&tray, &index, &second.cursor)?;
/// assert_eq!(end.record, None);
/// # Ok::<(), Box<dyn std::error::Error>>(())
/// ```
///
/// # Errors
/// [`TrayFrame`](Refusal::TrayFrame), [`IndexFrame`](Refusal::IndexFrame), [`Lost`](Refusal::Lost).
pub fn seek(tray: &[u8], index: &[u8], key: &Key) -> Result<Stop, Refusal> {
    let (mut run, mut place, mut cursor) = (0, 0, [0; CURSOR_SIZE]);
    let found = figure(raw::seek(tray, index, key, &mut run, &mut place, &mut cursor), Bounds::None)?;
    Ok(stop(found, run, place, cursor))
}

/// The first visible record after the cursor's own; from the end it gives the end. See [`seek`] for an example.
/// [`Reader::next`](crate::Reader::next) is the same.
///
/// # Errors
/// [`TrayFrame`](Refusal::TrayFrame), [`IndexFrame`](Refusal::IndexFrame), [`Cursor`](Refusal::Cursor), [`Lost`](Refusal::Lost).
pub fn next(tray: &[u8], index: &[u8], cursor: &Cursor) -> Result<Stop, Refusal> {
    let (mut run, mut place, mut cursor) = (0, 0, cursor.0);
    let found = figure(raw::next(tray, index, &mut run, &mut place, &mut cursor), Bounds::None)?;
    Ok(stop(found, run, place, cursor))
}

fn stop(found: u64, run: u8, place: u16, cursor: raw::Numbers) -> Stop {
    Stop { record: (found == 1).then_some((RunNo(run), Place(place))), cursor: Cursor(cursor) }
}

/// Writes the visible records from the cursor on, 24 bytes each, until less than 24 bytes of `out` remain or the end comes, and moves
/// the cursor to the first unwritten record. [`Reader::page`](crate::Reader::page) is the same.
///
/// With room for one record, a page that isn't refused writes a record or says the end. With less it writes none, and moves the cursor
/// to the first visible record.
///
/// ```
/// use kanyorith::{build_vec, listing, page, seek};
///
/// let tray = std::fs::read("examples/sample.tray")?;
/// let index = build_vec(&tray, 4)?;
/// let mut cursor = seek(&tray, &index, &[0; 8])?.cursor;
/// let mut out = [0; 24];
/// let first = page(&tray, &index, &mut cursor, &mut out)?;
/// assert_eq!((first.written, first.more), (1, true));
/// let second = page(&tray, &index, &mut cursor, &mut out)?;
/// assert_eq!((second.written, second.more), (1, false));
/// assert_eq!(listing(&out).next().map(|point| point.number()), Some(2));
/// # Ok::<(), Box<dyn std::error::Error>>(())
/// ```
///
/// # Errors
/// [`TrayFrame`](Refusal::TrayFrame), [`IndexFrame`](Refusal::IndexFrame), [`Cursor`](Refusal::Cursor), [`Lost`](Refusal::Lost). A
/// refused page leaves the cursor where it was; one that is lost keeps the records that it has written, and says how many.
pub fn page(tray: &[u8], index: &[u8], cursor: &mut Cursor, out: &mut [u8]) -> Result<Page, PageRefused> {
    let mut count = 0;
    let answer = raw::page(tray, index, &mut cursor.0, out, &mut count);
    let written = size(count);
    match figure(answer, Bounds::None) {
        Ok(more) => Ok(Page { written, more: more == 1 }),
        Err(refusal) => Err(PageRefused { written, refusal }),
    }
}

/// Writes the visible records whose keys begin with the prefix, 24 bytes each, and answers how many.
/// [`Reader::sheet`](crate::Reader::sheet) is the same.
///
/// ```
/// use kanyorith::{Refusal, build_vec, sheet};
///
/// let tray = std::fs::read("examples/sample.tray")?;
/// let index = build_vec(&tray, 4)?;
/// let mut out = [0; 48];
/// assert_eq!(sheet(&tray, &index, &[0, 0, 0, 0, 0, 7], &mut out), Ok(2));
/// assert_eq!(sheet(&tray, &index, &[], &mut out), Err(Refusal::PrefixLength { length: 0 }));
/// assert_eq!(sheet(&tray, &index, &[0, 255], &mut out), Err(Refusal::PrefixEnd { length: 2 }));
/// # Ok::<(), Box<dyn std::error::Error>>(())
/// ```
///
/// # Errors
/// [`TrayFrame`](Refusal::TrayFrame), [`IndexFrame`](Refusal::IndexFrame), [`PrefixLength`](Refusal::PrefixLength) for a prefix of no
/// byte or of more than 8, [`PrefixEnd`](Refusal::PrefixEnd), [`Lost`](Refusal::Lost), [`Room`](Refusal::Room). A refused sheet writes
/// nothing.
pub fn sheet(tray: &[u8], index: &[u8], prefix: &[u8], out: &mut [u8]) -> Result<usize, Refusal> {
    figure(raw::sheet(tray, index, prefix, out), Bounds::Prefix).map(size)
}

/// Writes a tray in which the runs `a` to `b` are one to the front of `out`, and answers its length in bytes. What is read stays the same.
///
/// ```
/// use kanyorith::{Refusal, check_tray, fold};
///
/// let tray = std::fs::read("examples/sample.tray")?;
/// let mut out = [0; 83];
/// let length = fold(&tray, 0, 1, &mut out)?;
/// assert_eq!(check_tray(&out[..length]), Ok(2));
/// assert_eq!(fold(&tray, 0, 2, &mut out), Err(Refusal::FoldBounds { last: 2 }));
/// # Ok::<(), Box<dyn std::error::Error>>(())
/// ```
///
/// # Errors
/// [`TrayFrame`](Refusal::TrayFrame), [`FoldBounds`](Refusal::FoldBounds) where `a` > `b` or there is no run `b`, then the first wrong
/// record as in [`check_tray`], then [`RunLength`](Refusal::RunLength), [`Room`](Refusal::Room). A refused fold writes nothing.
pub fn fold(tray: &[u8], a: u64, b: u64, out: &mut [u8]) -> Result<usize, Refusal> {
    figure(raw::fold(tray, a, b, out), Bounds::Runs).map(size)
}

/// A tray in which the runs `a` to `b` are one.
///
/// ```
/// use kanyorith::{check_tray, fold_vec};
///
/// let tray = std::fs::read("examples/sample.tray")?;
/// let folded = fold_vec(&tray, 0, 1)?;
/// assert_eq!(check_tray(&folded), Ok(2));
/// # Ok::<(), Box<dyn std::error::Error>>(())
/// ```
///
/// # Errors
/// Those of [`fold`] but [`Room`](Refusal::Room): a folded tray is never longer than the tray.
pub fn fold_vec(tray: &[u8], a: u64, b: u64) -> Result<Vec<u8>, Refusal> {
    let mut folded = vec![0; tray.len()];
    let written = fold(tray, a, b, &mut folded)?;
    folded.truncate(written);
    Ok(folded)
}

/// A count of bytes or records that are in memory.
fn size(figure: u64) -> usize {
    usize::try_from(figure).expect("the library runs where sizes have 64 bits")
}
