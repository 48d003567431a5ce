//! The rules of every call as sorting and plain loops: the twin that the library is compared with.
//!
//! Written from the words of the rules alone; it shares no code and no method with the library. Each function has the
//! shape of a C call: it takes any bytes, answers number and figure, and leaves in its outputs what the C call leaves there. It is slow:
//! it sorts where the library merges, and computes each place from the front of its segment where the library carries places along.

use std::cmp::Ordering;
use std::collections::{BTreeMap, HashMap};

use crate::raw::Answer;

const KEY: usize = 8;
const RECORD: usize = 25;
const LISTED: usize = 24;
const MOST_RUNS: usize = 63;
const MOST_RECORDS: usize = 4096;
const MOST_SELECTORS: usize = 128;
const PLACEHOLDER: u8 = 0x3f;
const OLD: u8 = 0x80;
const GONE: u8 = 0x40;
const RUN_BITS: u8 = 0x3f;

type Record = [u8; RECORD];
type Cursor = [u16; 66];

/// What a rule gives, or the number and figure of a refusal.
type Ruled<T> = Result<T, (u32, u64)>;

/// The answer of a call: what its rules give, in their order.
fn ruled(rules: impl FnOnce() -> Ruled<u64>) -> Answer {
    match rules() {
        Ok(figure) => Answer::ok(figure),
        Err((number, figure)) => Answer::refused(number, figure),
    }
}

fn number(bytes: &[u8]) -> usize {
    bytes.iter().fold(0, |sum, &byte| sum * 256 + usize::from(byte))
}

// The tray.

fn key(record: &Record) -> &[u8] {
    &record[..KEY]
}

fn value(record: &Record) -> &[u8] {
    &record[KEY + 1..]
}

fn is_gone(record: &Record) -> bool {
    record[KEY] == 1
}

/// The runs of a tray that follows the header, count and length rules.
fn runs_of(tray: &[u8]) -> Ruled<Vec<&[Record]>> {
    framed(tray).ok_or((1, 0))
}

fn framed(tray: &[u8]) -> Option<Vec<&[Record]>> {
    let head = tray.get(..4)?;
    let h = usize::from(head[0]);
    if !(1..=MOST_RUNS).contains(&h) || head[1..] != [0, 0, 0] {
        return None;
    }
    let counts = tray.get(4..4 + 2 * h)?;
    let mut rest = &tray[4 + 2 * h..];
    let mut runs = Vec::new();
    for count in counts.chunks(2).map(number) {
        if count > MOST_RECORDS || rest.len() < count * RECORD {
            return None;
        }
        let (run, after) = rest.split_at(count * RECORD);
        runs.push(run.as_chunks().0);
        rest = after;
    }
    rest.is_empty().then_some(runs)
}

/// Every record in tray order: its kind and value first, then its key.
fn judge_records(runs: &[&[Record]]) -> Ruled<u64> {
    let mut counted = 0;
    for run in runs {
        for (place, record) in run.iter().enumerate() {
            let valued = value(record).iter().any(|&byte| byte != 0);
            if record[KEY] > 1 || (is_gone(record) && valued) {
                return Err((3, counted));
            }
            if place > 0 && key(record) <= key(&run[place - 1]) {
                return Err((2, counted));
            }
            counted += 1;
        }
    }
    Ok(counted)
}

// The sorted view.

#[derive(Clone, Copy)]
struct Entry<'a> {
    key: &'a [u8],
    run: usize,
    gone: bool,
    old: bool,
}

impl Entry<'_> {
    /// The selector that spells this entry.
    fn selector(&self) -> u8 {
        let mut selector = self.run as u8;
        if self.old {
            selector |= OLD;
        }
        if self.gone {
            selector |= GONE;
        }
        selector
    }
}

/// All records by rising key, equal keys by rising run number. A record is old when a lower-numbered run has its key.
fn view_of<'a>(runs: &[&'a [Record]]) -> Vec<Entry<'a>> {
    let mut newest: HashMap<&[u8], usize> = HashMap::new();
    for (run, records) in runs.iter().enumerate().rev() {
        for record in *records {
            newest.insert(key(record), run);
        }
    }
    let mut view = Vec::new();
    for (run, records) in runs.iter().enumerate() {
        for record in *records {
            let old = newest[key(record)] < run;
            view.push(Entry { key: key(record), run, gone: is_gone(record), old });
        }
    }
    view.sort_by(|a, b| a.key.cmp(b.key).then(a.run.cmp(&b.run)));
    view
}

// The index.

/// An index whose frame fits the tray's run count.
struct Index<'a> {
    h: usize,
    d: usize,
    s: usize,
    segments: &'a [u8],
}

impl<'a> Index<'a> {
    fn framed(index: &'a [u8], h: usize) -> Ruled<Self> {
        let Some((head, segments)) = index.split_at_checked(8) else {
            return Err((4, 0));
        };
        let (d, s) = (usize::from(head[1]), number(&head[4..8]));
        let sizes = usize::from(head[0]) == h && d >= h && d <= MOST_SELECTORS;
        if !sizes || head[2..4] != [0, 0] || segments.len() as u128 != s as u128 * (8 + 2 * h + d) as u128 {
            return Err((4, 0));
        }
        Ok(Index { h, d, s, segments })
    }

    fn segment(&self, g: usize) -> &'a [u8] {
        let size = KEY + 2 * self.h + self.d;
        &self.segments[g * size..(g + 1) * size]
    }

    fn anchor(&self, g: usize) -> &'a [u8] {
        &self.segment(g)[..KEY]
    }

    fn offset(&self, g: usize, run: usize) -> usize {
        number(&self.segment(g)[KEY + 2 * run..][..2])
    }

    fn selectors(&self, g: usize) -> &'a [u8] {
        &self.segment(g)[KEY + 2 * self.h..]
    }

    /// The offset of a run plus its selectors before place `j` in segment `g`.
    fn place(&self, g: usize, j: usize, run: usize) -> usize {
        let earlier = &self.selectors(g)[..j];
        self.offset(g, run) + earlier.iter().filter(|&&selector| usize::from(selector & RUN_BITS) == run).count()
    }
}

/// How many records segment `g` takes from the front of `rest`, if it is right. `taken` counts each run's records in earlier segments.
fn right_segment(index: &Index, g: usize, rest: &[Entry], taken: &[usize]) -> Option<usize> {
    let selectors = index.selectors(g);
    let spelled = selectors.iter().position(|&selector| selector == PLACEHOLDER).unwrap_or(index.d);
    let placeholders_last = selectors[spelled..].iter().all(|&selector| selector == PLACEHOLDER);
    let offsets = (0..index.h).all(|run| index.offset(g, run) == taken[run]);
    if spelled == 0 || !placeholders_last || !offsets || spelled > rest.len() {
        return None;
    }
    let (mine, after) = rest.split_at(spelled);
    let spells = mine.iter().map(Entry::selector).eq(selectors[..spelled].iter().copied());
    let anchored = index.anchor(g) == mine[0].key;
    let whole = after.first().is_none_or(|next| next.key != mine[spelled - 1].key);
    (spells && anchored && whole).then_some(spelled)
}

/// S where every segment is right and no record is left over.
fn judge_index(index: &Index, view: &[Entry]) -> Ruled<u64> {
    let mut rest = view;
    let mut taken = vec![0; index.h];
    for g in 0..index.s {
        let Some(count) = right_segment(index, g, rest, &taken) else {
            return Err((5, g as u64));
        };
        for entry in &rest[..count] {
            taken[entry.run] += 1;
        }
        rest = &rest[count..];
    }
    if rest.is_empty() { Ok(index.s as u64) } else { Err((5, index.s as u64)) }
}

/// Segments that hold whole keys, at most `d` records each. After each key `ends` says whether its segment ends there; a segment that
/// cannot hold the next key's versions ends in any case.
fn packed<'v, 'a>(view: &'v [Entry<'a>], d: usize, mut ends: impl FnMut() -> bool) -> Vec<&'v [Entry<'a>]> {
    let mut segments = Vec::new();
    let mut from = 0;
    let mut to = 0;
    let mut full = false;
    for versions in view.chunk_by(|a, b| a.key == b.key) {
        if full || to - from + versions.len() > d {
            segments.push(&view[from..to]);
            from = to;
        }
        to += versions.len();
        full = ends();
    }
    if from < to {
        segments.push(&view[from..to]);
    }
    segments
}

fn index_of(h: usize, d: usize, segments: &[&[Entry]]) -> Vec<u8> {
    let mut index = vec![h as u8, d as u8, 0, 0];
    index.extend((segments.len() as u32).to_be_bytes());
    let mut offsets = vec![0u16; h];
    for segment in segments {
        index.extend(segment[0].key);
        for offset in &offsets {
            index.extend(offset.to_be_bytes());
        }
        index.extend(segment.iter().map(Entry::selector));
        index.extend(vec![PLACEHOLDER; d - segment.len()]);
        for entry in *segment {
            offsets[entry.run] += 1;
        }
    }
    index
}

/// An index of a sound tray whose segments end early wherever `ends` says so. The builder's own never does.
pub fn cut_index(tray: &[u8], d: usize, ends: impl FnMut() -> bool) -> Vec<u8> {
    let runs = framed(tray).expect("a sound tray");
    index_of(runs.len(), d, &packed(&view_of(&runs), d, ends))
}

// Reading through an index. A selector is found by its number over the whole index: segment × D + place.

/// A tray and an index whose frames fit.
struct Reading<'a> {
    runs: Vec<&'a [Record]>,
    index: Index<'a>,
}

impl<'a> Reading<'a> {
    fn open(tray: &'a [u8], index: &'a [u8]) -> Ruled<Self> {
        let runs = runs_of(tray)?;
        let index = Index::framed(index, runs.len())?;
        Ok(Reading { runs, index })
    }

    fn end(&self) -> usize {
        self.index.s * self.index.d
    }

    fn split(&self, at: usize) -> (usize, usize) {
        (at / self.index.d, at % self.index.d)
    }

    /// The first selector of the segment where a search for the key starts.
    fn start(&self, sought: &[u8]) -> usize {
        let mut first = 0;
        let mut past_last = self.index.s;
        while first < past_last {
            let probe = (first + past_last) / 2;
            match self.index.anchor(probe).cmp(sought) {
                Ordering::Less | Ordering::Equal => first = probe + 1,
                Ordering::Greater => past_last = probe,
            }
        }
        first.saturating_sub(1) * self.index.d
    }

    /// Run and place that a selector names: none for a placeholder, lost where there is no such record.
    fn named(&self, at: usize) -> Ruled<Option<(usize, usize)>> {
        let (g, j) = self.split(at);
        let selector = self.index.selectors(g)[j];
        if selector == PLACEHOLDER {
            return Ok(None);
        }
        let run = usize::from(selector & RUN_BITS);
        if run < self.runs.len() {
            let place = self.index.place(g, j, run);
            if place < self.runs[run].len() {
                return Ok(Some((run, place)));
            }
        }
        Err((10, (g * 128 + j) as u64))
    }

    /// The record where a walk may stay: named by a selector that bears no mark.
    fn unmarked(&self, at: usize) -> Ruled<Option<&'a Record>> {
        let named = self.named(at)?;
        let (g, j) = self.split(at);
        let marked = self.index.selectors(g)[j] & (OLD | GONE) != 0;
        Ok(named.filter(|_| !marked).map(|(run, place)| &self.runs[run][place]))
    }

    /// From a selector on, the first where the walk stays: visible, and not below the key. Else the end.
    fn walk(&self, from: usize, sought: &[u8]) -> Ruled<usize> {
        for at in from..self.end() {
            if self.unmarked(at)?.is_some_and(|record| key(record) >= sought) {
                return Ok(at);
            }
        }
        Ok(self.end())
    }

    fn seek(&self, sought: &[u8]) -> Ruled<usize> {
        self.walk(self.start(sought), sought)
    }

    /// The record where a walk has stayed; none at the end.
    fn record(&self, at: usize) -> Option<&'a Record> {
        if at == self.end() { None } else { self.unmarked(at).ok().flatten() }
    }

    /// The cursor of a selector. A place that passes 16 bits has none.
    fn cursor(&self, at: usize) -> Option<Cursor> {
        let (g, j) = self.split(at);
        let mut cursor = [0; 66];
        cursor[0] = (g >> 16) as u16;
        cursor[1] = (g & 0xffff) as u16;
        cursor[2] = j as u16;
        if at < self.end() {
            for run in 0..self.index.h {
                cursor[3 + run] = u16::try_from(self.index.place(g, j, run)).ok()?;
            }
        }
        Some(cursor)
    }

    /// The selector of a cursor that belongs.
    fn belongs(&self, cursor: &Cursor) -> Ruled<usize> {
        let g = usize::from(cursor[0]) * 65536 + usize::from(cursor[1]);
        let j = usize::from(cursor[2]);
        let there = (g < self.index.s && j < self.index.d) || (g == self.index.s && j == 0);
        let at = g * self.index.d + j;
        if there && self.cursor(at).as_ref() == Some(cursor) { Ok(at) } else { Err((11, g as u64)) }
    }

    /// Writes out where a walk stayed: 1 with run, place and cursor, or 0 with the cursor of the end.
    fn stay(&self, at: usize, run: &mut u8, place: &mut u16, cursor: &mut Cursor) -> u64 {
        *cursor = self.cursor(at).expect("a walk has passed only places that are there");
        if at == self.end() {
            return 0;
        }
        let named = self.named(at).ok().flatten().expect("a walk stays at a record");
        *run = named.0 as u8;
        *place = named.1 as u16;
        1
    }
}

/// Key and value, as a listing has them.
fn listed(record: &Record) -> Vec<u8> {
    [key(record), value(record)].concat()
}

/// The prefix filled with zeros, and the prefix with its last byte raised by one, filled with zeros.
fn bounds(prefix: &[u8]) -> Ruled<([u8; KEY], [u8; KEY])> {
    let length = prefix.len();
    if !(1..=KEY).contains(&length) {
        return Err((8, length as u64));
    }
    if prefix[length - 1] == 255 {
        return Err((9, length as u64));
    }
    let mut from = [0; KEY];
    from[..length].copy_from_slice(prefix);
    let mut to = from;
    to[length - 1] += 1;
    Ok((from, to))
}

/// Writes all the bytes to the front of the output, or refuses and writes none.
fn emit(bytes: &[u8], out: &mut [u8]) -> Ruled<u64> {
    let Some(front) = out.get_mut(..bytes.len()) else {
        return Err((7, bytes.len() as u64));
    };
    front.copy_from_slice(bytes);
    Ok(bytes.len() as u64)
}

// Folding.

/// For each key of the runs the record of the lowest-numbered one.
fn folded(runs: &[&[Record]]) -> Vec<Record> {
    let mut newest: BTreeMap<&[u8], Record> = BTreeMap::new();
    for record in runs.iter().rev().copied().flatten() {
        newest.insert(key(record), *record);
    }
    newest.into_values().collect()
}

fn tray_of(runs: &[&[Record]]) -> Vec<u8> {
    let mut tray = vec![runs.len() as u8, 0, 0, 0];
    for run in runs {
        tray.extend((run.len() as u16).to_be_bytes());
    }
    for run in runs {
        tray.extend(run.as_flattened());
    }
    tray
}

// What tests need beside the calls.

/// The cursor at a selector of a segment, if the frames fit, there is such a selector, and its places have 16 bits.
pub fn cursor_at(tray: &[u8], index: &[u8], segment: usize, selector: usize) -> Option<Cursor> {
    let reading = Reading::open(tray, index).ok()?;
    let there = segment < reading.index.s && selector < reading.index.d;
    there.then(|| reading.cursor(segment * reading.index.d + selector)).flatten()
}

/// Key and value of each visible record of a sound tray, by its runs alone: live, and no lower-numbered run has its key.
pub fn visible(tray: &[u8]) -> Vec<[u8; LISTED]> {
    let runs = framed(tray).expect("a sound tray");
    let records = folded(&runs);
    let live = records.iter().filter(|record| !is_gone(record));
    live.map(|record| listed(record).try_into().expect("24 bytes")).collect()
}

// The calls.

/// Check tray: 1, 3/2. Answers the records.
pub fn check_tray(tray: &[u8]) -> Answer {
    ruled(|| judge_records(&runs_of(tray)?))
}

/// Check index: 1, 3/2, 4, 5. Answers S.
pub fn check_index(tray: &[u8], index: &[u8]) -> Answer {
    ruled(|| {
        let runs = runs_of(tray)?;
        judge_records(&runs)?;
        judge_index(&Index::framed(index, runs.len())?, &view_of(&runs))
    })
}

/// Build: 1, 6, 3/2, 7. Answers the bytes written.
pub fn build(tray: &[u8], d: u64, out: &mut [u8]) -> Answer {
    ruled(|| {
        let runs = runs_of(tray)?;
        if d < runs.len() as u64 || d > MOST_SELECTORS as u64 {
            return Err((6, d));
        }
        judge_records(&runs)?;
        emit(&cut_index(tray, d as usize, || false), out)
    })
}

/// Get: 1, 4, 10. Answers 1 and the value, or 0 where the key is absent.
pub fn get(tray: &[u8], index: &[u8], sought: &[u8; KEY], out: &mut [u8; 16]) -> Answer {
    ruled(|| {
        let reading = Reading::open(tray, index)?;
        let at = reading.seek(sought)?;
        match reading.record(at).filter(|record| key(record) == sought) {
            Some(record) => {
                out.copy_from_slice(value(record));
                Ok(1)
            }
            None => Ok(0),
        }
    })
}

/// Seek: 1, 4, 10. Answers 1 with run, place and cursor, or 0 with the cursor of the end.
pub fn seek(
    tray: &[u8],
    index: &[u8],
    sought: &[u8; KEY],
    run: &mut u8,
    place: &mut u16,
    cursor: &mut Cursor,
) -> Answer {
    ruled(|| {
        let reading = Reading::open(tray, index)?;
        let at = reading.seek(sought)?;
        Ok(reading.stay(at, run, place, cursor))
    })
}

/// Next: 1, 4, 11, 10. Answers as seek does.
pub fn next(tray: &[u8], index: &[u8], run: &mut u8, place: &mut u16, cursor: &mut Cursor) -> Answer {
    ruled(|| {
        let reading = Reading::open(tray, index)?;
        let at = reading.belongs(cursor)?;
        if at == reading.end() {
            return Ok(0);
        }
        reading.named(at)?;
        let after = reading.walk(at + 1, &[])?;
        Ok(reading.stay(after, run, place, cursor))
    })
}

/// Page: 1, 4, 11, 10. Answers 1 where a record is unwritten, and 0 at the end.
pub fn page(tray: &[u8], index: &[u8], cursor: &mut Cursor, out: &mut [u8], count: &mut u64) -> Answer {
    *count = 0;
    ruled(|| {
        let reading = Reading::open(tray, index)?;
        let mut at = reading.belongs(cursor)?;
        let mut rooms = out.chunks_exact_mut(LISTED);
        loop {
            at = reading.walk(at, &[])?;
            let (Some(record), Some(room)) = (reading.record(at), rooms.next()) else {
                break;
            };
            room.copy_from_slice(&listed(record));
            *count += 1;
            at += 1;
        }
        *cursor = reading.cursor(at).expect("a walk has passed only places that are there");
        Ok(u64::from(at < reading.end()))
    })
}

/// Sheet: 1, 4, 8, 9, 10, 7. Answers the records listed.
pub fn sheet(tray: &[u8], index: &[u8], prefix: &[u8], out: &mut [u8]) -> Answer {
    ruled(|| {
        let reading = Reading::open(tray, index)?;
        let (from, to) = bounds(prefix)?;
        let mut listing = Vec::new();
        let mut at = reading.seek(&from)?;
        while let Some(record) = reading.record(at).filter(|record| key(record) < &to[..]) {
            listing.extend(listed(record));
            at = reading.walk(at + 1, &[])?;
        }
        Ok(emit(&listing, out)? / LISTED as u64)
    })
}

/// Fold: 1, 8, 3/2, 12, 7. Answers the bytes written.
pub fn fold(tray: &[u8], a: u64, b: u64, out: &mut [u8]) -> Answer {
    ruled(|| {
        let runs = runs_of(tray)?;
        if a > b || b >= runs.len() as u64 {
            return Err((8, b));
        }
        let (a, b) = (a as usize, b as usize);
        judge_records(&runs)?;
        let one = folded(&runs[a..=b]);
        if one.len() > MOST_RECORDS {
            return Err((12, one.len() as u64));
        }
        let fewer = [&runs[..a], &[&one], &runs[b + 1..]].concat();
        emit(&tray_of(&fewer), out)
    })
}
