//! The same rules written by hand for speed, without proofs: what the library is measured against. Every call has the shape of
//! `kanyorith_check::raw`, takes any bytes, and is compared with the twin before it is timed.

use std::hint::select_unpredictable;

use kanyorith_check::Answer;

const RECORD: usize = 25;
const LISTED: usize = 24;
const PLACEHOLDER: u8 = 0x3f;
const MARKS: u8 = 0xc0;

type Cursor = [u16; 66];
type Ruled<T> = Result<T, Answer>;

/// A number for each run. Runs that are not there have a count of 0, so that one test finds both ways to get lost.
type PerRun = [u32; 64];

const fn refuse<T>(number: u32, figure: u64) -> Ruled<T> {
    Err(Answer { number, figure })
}

fn answer(ruled: Ruled<u64>) -> Answer {
    ruled.map_or_else(|refused| refused, Answer::ok)
}

#[inline(always)]
fn be16(bytes: &[u8], at: usize) -> u32 {
    u32::from(u16::from_be_bytes([bytes[at], bytes[at + 1]]))
}

#[inline(always)]
fn be64(bytes: &[u8]) -> u64 {
    u64::from_be_bytes(*bytes.first_chunk().expect("8 bytes"))
}

struct Tray<'a> {
    bytes: &'a [u8],
    h: usize,
    counts: PerRun,
    starts: PerRun,
    records: u64,
}

impl<'a> Tray<'a> {
    fn open(bytes: &'a [u8]) -> Ruled<Self> {
        if bytes.len() < 4 || bytes[0] < 1 || bytes[0] > 63 || bytes[1] | bytes[2] | bytes[3] != 0 {
            return refuse(1, 0);
        }
        let h = usize::from(bytes[0]);
        if bytes.len() < 4 + 2 * h {
            return refuse(1, 0);
        }
        let (mut counts, mut starts) = ([0; 64], [0; 64]);
        let mut at = 4 + 2 * h as u32;
        for run in 0..h {
            let count = be16(bytes, 4 + 2 * run);
            if count > 4096 {
                return refuse(1, 0);
            }
            counts[run] = count;
            starts[run] = at;
            at += count * RECORD as u32;
        }
        if bytes.len() != at as usize {
            return refuse(1, 0);
        }
        let records = counts.iter().map(|&count| u64::from(count)).sum();
        Ok(Tray { bytes, h, counts, starts, records })
    }

    #[inline(always)]
    fn at(&self, run: usize, place: u32) -> usize {
        self.starts[run] as usize + place as usize * RECORD
    }

    #[inline(always)]
    fn record(&self, run: usize, place: u32) -> &'a [u8; RECORD] {
        self.bytes[self.at(run, place)..].first_chunk().expect("the frame fits")
    }

    fn check(&self) -> Ruled<u64> {
        let mut before = 0;
        for run in 0..self.h {
            let from = self.starts[run] as usize;
            let records = self.bytes[from..from + self.counts[run] as usize * RECORD].as_chunks::<RECORD>().0;
            let mut last = None;
            for (place, record) in records.iter().enumerate() {
                if record[8] != 0 && (record[8] > 1 || be64(&record[9..]) | be64(&record[17..]) != 0) {
                    return refuse(3, before + place as u64);
                }
                let key = be64(record);
                if last.is_some_and(|last| key <= last) {
                    return refuse(2, before + place as u64);
                }
                last = Some(key);
            }
            before += records.len() as u64;
        }
        Ok(before)
    }
}

struct Index<'a> {
    bytes: &'a [u8],
    d: usize,
    s: usize,
    size: usize,
    head: usize,
}

impl<'a> Index<'a> {
    fn open(bytes: &'a [u8], h: usize) -> Ruled<Self> {
        if bytes.len() < 8 || usize::from(bytes[0]) != h || bytes[2] | bytes[3] != 0 {
            return refuse(4, 0);
        }
        let d = usize::from(bytes[1]);
        let s = (be16(bytes, 4) << 16 | be16(bytes, 6)) as usize;
        let size = 8 + 2 * h + d;
        if d < h || d > 128 || (bytes.len() - 8) as u64 != s as u64 * size as u64 {
            return refuse(4, 0);
        }
        Ok(Index { bytes, d, s, size, head: 8 + 2 * h })
    }

    #[inline(always)]
    fn segment(&self, g: usize) -> (&'a [u8], &'a [u8]) {
        self.bytes[8 + g * self.size..][..self.size].split_at(self.head)
    }

    #[inline(always)]
    fn load(&self, g: usize, h: usize, places: &mut PerRun) {
        let offsets = self.segment(g).0[8..].as_chunks::<2>().0;
        for (place, offset) in places.iter_mut().zip(&offsets[..h]) {
            *place = u32::from(u16::from_be_bytes(*offset));
        }
    }

    fn start(&self, key: u64) -> usize {
        let (mut first, mut past) = (0, self.s);
        while first < past {
            let probe = (first + past) / 2;
            if be64(&self.bytes[8 + probe * self.size..]) <= key {
                first = probe + 1;
            } else {
                past = probe;
            }
        }
        first.saturating_sub(1)
    }
}

/// One pass: every segment takes each run's records in order, rises by key and run, and leaves every run's next key above its last one.
fn judge(tray: &Tray, index: &Index) -> Ruled<u64> {
    let mut places = [0; 64];
    for g in 0..index.s {
        if !segment_is_right(tray, index, g, &mut places) {
            return refuse(5, g as u64);
        }
    }
    if places != tray.counts {
        return refuse(5, index.s as u64);
    }
    Ok(index.s as u64)
}

fn segment_is_right(tray: &Tray, index: &Index, g: usize, places: &mut PerRun) -> bool {
    let (head, selectors) = index.segment(g);
    for (place, offset) in places.iter().zip(head[8..].as_chunks::<2>().0) {
        if *place != u32::from(u16::from_be_bytes(*offset)) {
            return false;
        }
    }
    let anchor = be64(head);
    let (mut last, mut last_run, mut spelled) = (anchor, 0, 0);
    for &selector in selectors.iter().take_while(|&&selector| selector != PLACEHOLDER) {
        let run = usize::from(selector & 63);
        if places[run] >= tray.counts[run] {
            return false;
        }
        let record = tray.record(run, places[run]);
        let key = be64(record);
        // Whether a key repeats cannot be predicted: it decides the mark as a number, and no branch depends on it.
        let first = spelled == 0;
        let old = (key == last) & !first;
        let follows = ((key > last) & !first) | (old & (run > last_run)) | ((key == anchor) & first);
        if !follows | (selector != run as u8 | record[8] << 6 | u8::from(old) << 7) {
            return false;
        }
        places[run] += 1;
        last = key;
        last_run = run;
        spelled += 1;
    }
    if spelled == 0 || selectors[spelled..].iter().any(|&selector| selector != PLACEHOLDER) {
        return false;
    }
    (0..tray.h).all(|run| places[run] >= tray.counts[run] || be64(tray.record(run, places[run])) > last)
}

/// Key and run of a record that comes up in a merge. A run without a record has the greatest key and a run past all others.
#[derive(Clone, Copy)]
struct Rank {
    key: u64,
    run: u64,
}

const NONE: Rank = Rank { key: u64::MAX, run: 64 };

impl Rank {
    /// The lesser and the greater of two. Which is which cannot be predicted.
    #[inline(always)]
    fn sorted(self, other: Rank) -> (Rank, Rank) {
        let less = (self.key < other.key) | ((self.key == other.key) & (self.run < other.run));
        let lesser = Rank {
            key: select_unpredictable(less, self.key, other.key),
            run: select_unpredictable(less, self.run, other.run),
        };
        let greater = Rank {
            key: select_unpredictable(less, other.key, self.key),
            run: select_unpredictable(less, other.run, self.run),
        };
        (lesser, greater)
    }
}

/// A loser tree over the runs `from..=to`: the least key comes first, of equal keys the lowest run. The key after each run's next one
/// is read ahead, so that no comparison waits for it.
struct Losers<'t, 'a> {
    tray: &'t Tray<'a>,
    nodes: [Rank; 64],
    ahead: [Rank; 64],
    leaves: usize,
    winner: Rank,
    places: PerRun,
}

impl<'t, 'a> Losers<'t, 'a> {
    fn new(tray: &'t Tray<'a>, from: usize, to: usize) -> Self {
        let leaves = tray.h.next_power_of_two();
        let (nodes, ahead) = ([NONE; 64], [NONE; 64]);
        let mut losers = Losers { tray, nodes, ahead, leaves, winner: NONE, places: [0; 64] };
        let mut winners = [NONE; 128];
        for run in from..=to {
            winners[leaves + run] = losers.rank(run, 0);
            losers.ahead[run] = losers.rank(run, 1);
        }
        for node in (1..leaves).rev() {
            (winners[node], losers.nodes[node]) = winners[2 * node].sorted(winners[2 * node + 1]);
        }
        losers.winner = winners[1];
        losers
    }

    #[inline(always)]
    fn rank(&self, run: usize, place: u32) -> Rank {
        if place < self.tray.counts[run] {
            Rank { key: be64(self.tray.record(run, place)), run: run as u64 }
        } else {
            NONE
        }
    }

    /// Key and run that come next.
    #[inline(always)]
    fn least(&self) -> Option<(u64, usize)> {
        (self.winner.run < 64).then_some((self.winner.key, (self.winner.run & 63) as usize))
    }

    #[inline(always)]
    fn advance(&mut self, run: usize) {
        let place = self.places[run] + 1;
        self.places[run] = place;
        let mut rising = self.ahead[run];
        self.ahead[run] = self.rank(run, place + 1);
        let mut node = (self.leaves + run) / 2;
        while node > 0 {
            (rising, self.nodes[node & 63]) = rising.sorted(self.nodes[node & 63]);
            node /= 2;
        }
        self.winner = rising;
    }
}

/// What the builder's segments are written to: an output, or nothing where they are only counted.
trait Sink {
    fn open(&mut self, key: u64, places: &PerRun, h: usize);
    fn put(&mut self, used: usize, selector: u8);
    /// Takes back the selectors from a place on, and opens the next segment with them.
    fn carry(&mut self, from: usize, d: usize, key: u64, places: &PerRun, h: usize);
    fn close(&mut self, used: usize, d: usize);
}

struct Counted(usize, [u8; 128]);

impl Sink for Counted {
    fn open(&mut self, _: u64, _: &PerRun, _: usize) {
        self.0 += 1;
    }
    #[inline(always)]
    fn put(&mut self, used: usize, selector: u8) {
        self.1[used & 127] = selector;
    }
    fn carry(&mut self, _: usize, _: usize, _: u64, _: &PerRun, _: usize) {
        self.0 += 1;
    }
    fn close(&mut self, _: usize, _: usize) {}
}

/// The output, and where the current segment's selectors start.
struct Out<'o> {
    bytes: &'o mut [u8],
    at: usize,
    segments: u32,
}

impl Sink for Out<'_> {
    fn open(&mut self, key: u64, places: &PerRun, h: usize) {
        let head = &mut self.bytes[self.at..self.at + 8 + 2 * h];
        head[..8].copy_from_slice(&key.to_be_bytes());
        for (offset, place) in head[8..].as_chunks_mut::<2>().0.iter_mut().zip(places) {
            *offset = (*place as u16).to_be_bytes();
        }
        self.at += 8 + 2 * h;
        self.segments += 1;
    }

    #[inline(always)]
    fn put(&mut self, used: usize, selector: u8) {
        self.bytes[self.at + used] = selector;
    }

    fn carry(&mut self, from: usize, d: usize, key: u64, places: &PerRun, h: usize) {
        let mut before = *places;
        let mut carried = [0; 128];
        carried[..d - from].copy_from_slice(&self.bytes[self.at + from..self.at + d]);
        for selector in &carried[..d - from] {
            before[usize::from(selector & 63)] -= 1;
        }
        self.close(from, d);
        self.open(key, &before, h);
        self.bytes[self.at..self.at + d - from].copy_from_slice(&carried[..d - from]);
    }

    fn close(&mut self, used: usize, d: usize) {
        self.bytes[self.at + used..self.at + d].fill(PLACEHOLDER);
        self.at += d;
    }
}

/// The builder, record after record: where a segment is full within a key, the key's records are carried into the next one.
fn pack(tray: &Tray, d: usize, out: &mut impl Sink) {
    let mut losers = Losers::new(tray, 0, tray.h - 1);
    let Some((mut last, _)) = losers.least() else {
        return;
    };
    out.open(last, &losers.places, tray.h);
    let (mut used, mut begun, mut first) = (0, 0, true);
    while let Some((key, run)) = losers.least() {
        let old = (key == last) & !first;
        if used == d {
            if old {
                out.carry(begun, d, key, &losers.places, tray.h);
                used = d - begun;
            } else {
                out.close(d, d);
                out.open(key, &losers.places, tray.h);
                used = 0;
            }
            begun = 0;
        }
        let gone = tray.record(run, losers.places[run])[8];
        out.put(used, run as u8 | gone << 6 | u8::from(old) << 7);
        begun = select_unpredictable(old, begun, used);
        used += 1;
        last = key;
        first = false;
        losers.advance(run);
    }
    out.close(used, d);
}

fn count_segments(tray: &Tray, d: usize) -> usize {
    let mut counted = Counted(0, [0; 128]);
    pack(tray, d, &mut counted);
    counted.0
}

fn write_index(tray: &Tray, d: usize, bytes: &mut [u8]) -> usize {
    let mut out = Out { bytes, at: 8, segments: 0 };
    pack(tray, d, &mut out);
    let (at, segments) = (out.at, out.segments);
    bytes[..4].copy_from_slice(&[tray.h as u8, d as u8, 0, 0]);
    bytes[4..8].copy_from_slice(&segments.to_be_bytes());
    at
}

struct Reading<'a> {
    tray: Tray<'a>,
    index: Index<'a>,
}

/// Where a walk stays: segment, selector, run.
struct Stop {
    g: usize,
    j: usize,
    run: usize,
}

impl<'a> Reading<'a> {
    fn open(tray: &'a [u8], index: &'a [u8]) -> Ruled<Self> {
        let tray = Tray::open(tray)?;
        let index = Index::open(index, tray.h)?;
        Ok(Reading { tray, index })
    }

    /// Walks from a selector to the first unmarked record of which `stays` is true. It is asked of marked records too, so that no branch
    /// hangs on a mark.
    #[inline(always)]
    fn walk(
        &self,
        g: usize,
        j: usize,
        places: &mut PerRun,
        stays: impl Fn(&'a [u8; RECORD]) -> bool,
    ) -> Ruled<Option<Stop>> {
        let mut from = j;
        for g in g..self.index.s {
            if from == 0 {
                self.index.load(g, self.tray.h, places);
            }
            for (j, &selector) in self.index.segment(g).1.iter().enumerate().skip(from) {
                if selector == PLACEHOLDER {
                    continue;
                }
                let run = usize::from(selector & 63);
                let place = places[run];
                if place >= self.tray.counts[run] {
                    return refuse(10, (g * 128 + j) as u64);
                }
                if (selector & MARKS == 0) & stays(self.tray.record(run, place)) {
                    return Ok(Some(Stop { g, j, run }));
                }
                places[run] = place + 1;
            }
            from = 0;
        }
        Ok(None)
    }

    /// Lists from a selector on: `take` is handed the unmarked records of a segment at once, and says at which it stops.
    #[inline(always)]
    fn list(
        &self,
        g: usize,
        j: usize,
        places: &mut PerRun,
        mut take: impl FnMut(&[u32]) -> Option<usize>,
    ) -> Ruled<Option<Stop>> {
        let (mut at, mut selectors) = ([0; 128], [0; 128]);
        let mut from = j;
        for g in g..self.index.s {
            if from == 0 {
                self.index.load(g, self.tray.h, places);
            }
            let (mut count, mut lost) = (0, None);
            for (j, &selector) in self.index.segment(g).1.iter().enumerate().skip(from) {
                if selector == PLACEHOLDER {
                    continue;
                }
                let run = usize::from(selector & 63);
                let place = places[run];
                if place >= self.tray.counts[run] {
                    lost = Some(j);
                    break;
                }
                // Noted in any case, in a place that the next record takes again where this one is marked.
                at[count & 127] = self.tray.starts[run] + place * RECORD as u32;
                selectors[count & 127] = j;
                count += usize::from(selector & MARKS == 0);
                places[run] = place + 1;
            }
            if let Some(stop) = take(&at[..count]) {
                let j = selectors[stop];
                *places = self.places(g, j);
                return Ok(Some(Stop { g, j, run: usize::from(self.index.segment(g).1[j]) }));
            }
            if let Some(j) = lost {
                return refuse(10, (g * 128 + j) as u64);
            }
            from = 0;
        }
        Ok(None)
    }

    /// The offset of each run plus its selectors before a place.
    fn places(&self, g: usize, j: usize) -> PerRun {
        let mut places = [0; 64];
        self.index.load(g, self.tray.h, &mut places);
        for selector in &self.index.segment(g).1[..j] {
            places[usize::from(selector & 63)] += 1;
        }
        places[self.tray.h..].fill(0);
        places
    }

    /// The record that stands at a place of the tray.
    #[inline(always)]
    fn record(&self, at: u32) -> &'a [u8; RECORD] {
        self.tray.bytes[at as usize..].first_chunk().expect("a record")
    }

    fn seek(&self, key: u64, places: &mut PerRun) -> Ruled<Option<Stop>> {
        self.walk(self.index.start(key), 0, places, |record| be64(record) >= key)
    }

    fn cursor(&self, stop: &Option<Stop>, places: &PerRun) -> Cursor {
        let mut cursor = [0; 66];
        let (g, j) = stop.as_ref().map_or((self.index.s, 0), |stop| (stop.g, stop.j));
        cursor[0] = (g >> 16) as u16;
        cursor[1] = g as u16;
        cursor[2] = j as u16;
        if stop.is_some() {
            for (number, place) in cursor[3..].iter_mut().zip(&places[..self.tray.h]) {
                *number = *place as u16;
            }
        }
        cursor
    }

    /// Segment, selector and places of a cursor that belongs; none at the end.
    fn belongs(&self, cursor: &Cursor) -> Ruled<Option<(usize, usize, PerRun)>> {
        let g = usize::from(cursor[0]) << 16 | usize::from(cursor[1]);
        let j = usize::from(cursor[2]);
        if g == self.index.s && cursor[2..].iter().all(|&number| number == 0) {
            return Ok(None);
        }
        if g >= self.index.s || j >= self.index.d {
            return refuse(11, g as u64);
        }
        let places = self.places(g, j);
        if places[..63].iter().zip(&cursor[3..]).any(|(place, number)| *place != u32::from(*number)) {
            return refuse(11, g as u64);
        }
        Ok(Some((g, j, places)))
    }
}

#[inline(always)]
fn list(record: &[u8; RECORD], room: &mut [u8; LISTED]) {
    room[..8].copy_from_slice(&record[..8]);
    room[8..].copy_from_slice(&record[9..]);
}

fn bounds(prefix: &[u8]) -> Ruled<(u64, u64)> {
    let length = prefix.len();
    if !(1..=8).contains(&length) {
        return refuse(8, length as u64);
    }
    if prefix[length - 1] == 255 {
        return refuse(9, length as u64);
    }
    let mut from = [0; 8];
    from[..length].copy_from_slice(prefix);
    let mut to = from;
    to[length - 1] += 1;
    Ok((u64::from_be_bytes(from), u64::from_be_bytes(to)))
}

pub fn check_tray(tray: &[u8]) -> Answer {
    answer(Tray::open(tray).and_then(|tray| tray.check()))
}

pub fn check_index(tray: &[u8], index: &[u8]) -> Answer {
    let ruled = || {
        let tray = Tray::open(tray)?;
        tray.check()?;
        judge(&tray, &Index::open(index, tray.h)?)
    };
    answer(ruled())
}

pub fn build(tray: &[u8], d: u64, out: &mut [u8]) -> Answer {
    let mut ruled = || {
        let tray = Tray::open(tray)?;
        if d < tray.h as u64 || d > 128 {
            return refuse(6, d);
        }
        tray.check()?;
        let size = 8 + 2 * tray.h as u64 + d;
        if (out.len() as u64) < 8 + (2 * (tray.records / (d + 1)) + 1) * size {
            let need = 8 + count_segments(&tray, d as usize) as u64 * size;
            if (out.len() as u64) < need {
                return refuse(7, need);
            }
        }
        Ok(write_index(&tray, d as usize, out) as u64)
    };
    answer(ruled())
}

pub fn get(tray: &[u8], index: &[u8], key: &[u8; 8], value: &mut [u8; 16]) -> Answer {
    let mut ruled = || {
        let reading = Reading::open(tray, index)?;
        let mut places = [0; 64];
        let Some(stop) = reading.seek(be64(key), &mut places)? else {
            return Ok(0);
        };
        let record = reading.tray.record(stop.run, places[stop.run]);
        if record[..8] != *key {
            return Ok(0);
        }
        value.copy_from_slice(&record[9..]);
        Ok(1)
    };
    answer(ruled())
}

pub fn seek(tray: &[u8], index: &[u8], key: &[u8; 8], run: &mut u8, place: &mut u16, cursor: &mut Cursor) -> Answer {
    let mut ruled = || {
        let reading = Reading::open(tray, index)?;
        let mut places = [0; 64];
        let stop = reading.seek(be64(key), &mut places)?;
        *cursor = reading.cursor(&stop, &places);
        Ok(stay(stop, &places, run, place))
    };
    answer(ruled())
}

fn stay(stop: Option<Stop>, places: &PerRun, run: &mut u8, place: &mut u16) -> u64 {
    let Some(stop) = stop else {
        return 0;
    };
    *run = stop.run as u8;
    *place = places[stop.run] as u16;
    1
}

pub fn next(tray: &[u8], index: &[u8], run: &mut u8, place: &mut u16, cursor: &mut Cursor) -> Answer {
    let mut ruled = || {
        let reading = Reading::open(tray, index)?;
        let Some((g, j, mut places)) = reading.belongs(cursor)? else {
            return Ok(0);
        };
        let current = reading.index.segment(g).1[j];
        if current != PLACEHOLDER {
            let run = usize::from(current & 63);
            if places[run] >= reading.tray.counts[run] {
                return refuse(10, (g * 128 + j) as u64);
            }
            places[run] += 1;
        }
        let (g, j) = if j + 1 < reading.index.d { (g, j + 1) } else { (g + 1, 0) };
        let stop = reading.walk(g, j, &mut places, |_| true)?;
        *cursor = reading.cursor(&stop, &places);
        Ok(stay(stop, &places, run, place))
    };
    answer(ruled())
}

pub fn page(tray: &[u8], index: &[u8], cursor: &mut Cursor, out: &mut [u8], count: &mut u64) -> Answer {
    *count = 0;
    let mut ruled = || {
        let reading = Reading::open(tray, index)?;
        let Some((g, j, mut places)) = reading.belongs(cursor)? else {
            return Ok(0);
        };
        let rooms = out.as_chunks_mut::<LISTED>().0;
        let mut written = 0;
        let stop = reading.list(g, j, &mut places, |records| {
            let fit = records.len().min(rooms.len() - written);
            for (room, at) in rooms[written..].iter_mut().zip(records) {
                list(reading.record(*at), room);
            }
            written += fit;
            (fit < records.len()).then_some(fit)
        });
        *count = written as u64;
        let stop = stop?;
        *cursor = reading.cursor(&stop, &places);
        Ok(u64::from(stop.is_some()))
    };
    answer(ruled())
}

/// How many records a sheet remembers while it counts; a longer one walks twice.
const REMEMBERED: usize = 1024;

pub fn sheet(tray: &[u8], index: &[u8], prefix: &[u8], out: &mut [u8]) -> Answer {
    let mut ruled = || {
        let reading = Reading::open(tray, index)?;
        let (from, to) = bounds(prefix)?;
        let mut remembered = [0; REMEMBERED];
        let start = reading.index.start(from);
        let listed = each_of_sheet(&reading, start, from, to, |nth, at| {
            if nth < REMEMBERED {
                remembered[nth] = at;
            }
        })?;
        if out.len() < listed * LISTED {
            return refuse(7, (listed * LISTED) as u64);
        }
        let rooms = &mut out.as_chunks_mut::<LISTED>().0[..listed];
        if listed <= REMEMBERED {
            rooms.iter_mut().zip(remembered).for_each(|(room, at)| list(reading.record(at), room));
        } else {
            each_of_sheet(&reading, start, from, to, |nth, at| list(reading.record(at), &mut rooms[nth]))?;
        }
        Ok(listed as u64)
    };
    answer(ruled())
}

/// Hands on the records of a sheet, each with its number; gives how many there are.
#[inline(always)]
fn each_of_sheet(
    reading: &Reading,
    start: usize,
    from: u64,
    to: u64,
    mut take: impl FnMut(usize, u32),
) -> Ruled<usize> {
    let (mut places, mut listed) = ([0; 64], 0);
    reading.list(start, 0, &mut places, |records| {
        let key = |at: &u32| be64(reading.record(*at));
        let below = if listed > 0 { 0 } else { records.iter().position(|at| key(at) >= from).unwrap_or(records.len()) };
        for (nth, at) in records.iter().enumerate().skip(below) {
            if key(at) >= to {
                return Some(nth);
            }
            take(listed, *at);
            listed += 1;
        }
        None
    })?;
    Ok(listed)
}

pub fn fold(tray: &[u8], a: u64, b: u64, out: &mut [u8]) -> Answer {
    let mut ruled = || {
        let tray = Tray::open(tray)?;
        if a > b || b >= tray.h as u64 {
            return refuse(8, b);
        }
        tray.check()?;
        let (a, b) = (a as usize, b as usize);
        let mut kept = [0u32; 4097];
        let mut count = 0;
        let mut losers = Losers::new(&tray, a, b);
        let mut last = None;
        while let Some((key, run)) = losers.least() {
            // Noted in any case, in a place that the next record takes again where this one is old.
            let fresh = last != Some(key);
            kept[count.min(4096)] = tray.at(run, losers.places[run]) as u32;
            count += usize::from(fresh);
            last = Some(key);
            losers.advance(run);
        }
        if count > 4096 {
            return refuse(12, count as u64);
        }
        write_folded(&tray, a, b, &kept[..count], out)
    };
    answer(ruled())
}

fn write_folded(tray: &Tray, a: usize, b: usize, kept: &[u32], out: &mut [u8]) -> Ruled<u64> {
    let (bytes, h) = (tray.bytes, tray.h - (b - a));
    let before = &bytes[4 + 2 * tray.h..tray.starts[a] as usize];
    let after = &bytes[tray.at(b, tray.counts[b])..];
    let need = 4 + 2 * h + before.len() + kept.len() * RECORD + after.len();
    if out.len() < need {
        return refuse(7, need as u64);
    }
    let (head, records) = out[..need].split_at_mut(4 + 2 * h);
    head[..4].copy_from_slice(&[h as u8, 0, 0, 0]);
    head[4..4 + 2 * a].copy_from_slice(&bytes[4..4 + 2 * a]);
    head[4 + 2 * a..6 + 2 * a].copy_from_slice(&(kept.len() as u16).to_be_bytes());
    head[6 + 2 * a..].copy_from_slice(&bytes[6 + 2 * b..4 + 2 * tray.h]);
    let (front, rest) = records.split_at_mut(before.len());
    front.copy_from_slice(before);
    let (middle, back) = rest.split_at_mut(kept.len() * RECORD);
    for (room, from) in middle.as_chunks_mut::<RECORD>().0.iter_mut().zip(kept) {
        *room = *bytes[*from as usize..].first_chunk().expect("a record");
    }
    back.copy_from_slice(after);
    Ok(need as u64)
}
