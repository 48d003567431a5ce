//! Trays, indexes and cursors to try calls on, drawn from any source of bytes: a generator with a seed, or a fuzzer's input.

use kanyorith::{MOST_SELECTORS, RECORD_SIZE};

use crate::naive;
use crate::raw::Numbers;

/// The worked example of `docs/FORMAT.md`: run 0 has point 1 of sheet 7, run 1 has an old version of it, and point 2.
pub const SAMPLE_TRAY: &[u8] = &[
    2, 0, 0, 0, 0, 1, 0, 2, // two runs, of one record and of two
    0, 0, 0, 0, 0, 7, 0, 1, 0, 0, 0, 3, 32, 0, 0, 1, 144, 0, 0, 0, 1, 0, 0, 0, 2, // column 800, row 400
    0, 0, 0, 0, 0, 7, 0, 1, 0, 0, 0, 0, 100, 0, 0, 0, 50, 0, 0, 0, 1, 0, 0, 0, 2, // column 100, row 50
    0, 0, 0, 0, 0, 7, 0, 2, 0, 0, 0, 0, 101, 0, 0, 0, 50, 0, 0, 0, 0, 255, 255, 255, 255, // column 101, row 50
];

/// A record of a tray: key, kind, value.
pub type Record = [u8; RECORD_SIZE];

/// A source of bytes that choices are drawn from.
pub trait Draw {
    /// The next byte.
    fn byte(&mut self) -> u8;

    /// A number of eight bytes.
    fn wide(&mut self) -> u64 {
        u64::from_be_bytes(std::array::from_fn(|_| self.byte()))
    }

    /// A number below `limit`, which is above 0. Small limits take one byte.
    fn below(&mut self, limit: usize) -> usize {
        let drawn = if limit <= 256 {
            usize::from(self.byte())
        } else {
            (0..4).fold(0, |sum, _| sum * 256 + usize::from(self.byte()))
        };
        drawn % limit
    }

    /// True about `percent` times in a hundred.
    fn chance(&mut self, percent: usize) -> bool {
        self.below(100) < percent
    }
}

/// A xorshift generator: the same bytes for the same seed, everywhere.
#[derive(Clone, Debug)]
pub struct Rng(u64);

impl Rng {
    /// A generator that starts from the seed.
    pub fn new(seed: u64) -> Self {
        // A xorshift must not start from 0, and neighbouring seeds should differ in many bits.
        Rng((seed ^ 0x9e37_79b9_7f4a_7c15).wrapping_mul(0xbf58_476d_1ce4_e5b9) | 1)
    }
}

impl Draw for Rng {
    fn byte(&mut self) -> u8 {
        self.wide() as u8
    }

    fn wide(&mut self) -> u64 {
        self.0 ^= self.0 >> 12;
        self.0 ^= self.0 << 25;
        self.0 ^= self.0 >> 27;
        self.0.wrapping_mul(0x2545_f491_4f6c_dd1d).swap_bytes()
    }

    fn below(&mut self, limit: usize) -> usize {
        (self.wide() % limit as u64) as usize
    }
}

/// A fuzzer's input as a source: zeros after its last byte.
#[derive(Clone, Debug)]
pub struct Script<'a>(pub &'a [u8]);

impl Draw for Script<'_> {
    fn byte(&mut self) -> u8 {
        let Some((&first, rest)) = self.0.split_first() else {
            return 0;
        };
        self.0 = rest;
        first
    }
}

/// What sort of trays to draw.
#[derive(Clone, Copy, Debug)]
pub struct Shape {
    /// The most runs, from 1 on.
    pub runs: usize,
    /// The most records in a run.
    pub records: usize,
    /// How many different keys there are to draw from: few keys make many versions.
    pub keys: usize,
    /// How many records in a hundred are gone.
    pub gone: usize,
    /// How many runs in a hundred are empty.
    pub empty: usize,
}

/// The key of a number: its low byte is the point, the others the sheet, so that neighbouring numbers often share a sheet.
pub fn key(number: u64) -> [u8; 8] {
    let mut key = [0; 8];
    key[..6].copy_from_slice(&(number >> 4).to_be_bytes()[2..]);
    key[7] = (number & 15) as u8;
    key
}

/// A live record, its value drawn.
pub fn live(key: [u8; 8], draw: &mut impl Draw) -> Record {
    let mut record = [0; RECORD_SIZE];
    record[..8].copy_from_slice(&key);
    for byte in &mut record[9..] {
        *byte = draw.byte();
    }
    record
}

/// A gone record.
pub fn gone(key: [u8; 8]) -> Record {
    let mut record = [0; RECORD_SIZE];
    record[..8].copy_from_slice(&key);
    record[8] = 1;
    record
}

/// A run of rising keys.
fn run(draw: &mut impl Draw, shape: &Shape) -> Vec<Record> {
    if draw.chance(shape.empty) {
        return Vec::new();
    }
    let most = draw.below(shape.records.min(shape.keys) + 1);
    let mut numbers: Vec<usize> = (0..most).map(|_| draw.below(shape.keys)).collect();
    numbers.sort_unstable();
    numbers.dedup();
    let keys = numbers.into_iter().map(|number| key(number as u64));
    keys.map(|key| if draw.chance(shape.gone) { gone(key) } else { live(key, draw) }).collect()
}

/// Runs of a drawn number, newest first.
pub fn runs(draw: &mut impl Draw, shape: &Shape) -> Vec<Vec<Record>> {
    let count = 1 + draw.below(shape.runs);
    (0..count).map(|_| run(draw, shape)).collect()
}

/// The tray of runs. No rule is enforced: runs of any number and length, in any order, have bytes.
pub fn tray_of(runs: &[Vec<Record>]) -> Vec<u8> {
    let mut tray = vec![runs.len() as u8, 0, 0, 0];
    for run in runs {
        tray.extend((run.len() as u16).to_be_bytes());
    }
    for run in runs {
        tray.extend(run.as_flattened());
    }
    tray
}

/// A sound tray.
pub fn tray(draw: &mut impl Draw, shape: &Shape) -> Vec<u8> {
    tray_of(&runs(draw, shape))
}

/// A segment size that fits the tray.
pub fn size(draw: &mut impl Draw, tray: &[u8]) -> usize {
    let h = usize::from(tray[0]);
    let widths = [1, 3, MOST_SELECTORS + 1 - h];
    let width = widths[draw.below(3)].min(MOST_SELECTORS + 1 - h);
    h + draw.below(width)
}

/// An accepted index of a sound tray: as it is built, or with segments that end early.
pub fn index(draw: &mut impl Draw, tray: &[u8]) -> Vec<u8> {
    let d = size(draw, tray);
    let percent = [0, 10, 50, 100][draw.below(4)];
    naive::cut_index(tray, d, || draw.chance(percent))
}

/// Changes some bytes: a few at random, a bit, a stretch copied over another, or the length.
pub fn damage(draw: &mut impl Draw, bytes: &mut Vec<u8>) {
    if bytes.is_empty() {
        bytes.push(draw.byte());
        return;
    }
    let at = draw.below(bytes.len());
    match draw.below(8) {
        0 => bytes.truncate(at),
        1 => bytes.insert(at, draw.byte()),
        2 => bytes[at] ^= 1 << draw.below(8),
        3 => {
            let from = draw.below(bytes.len());
            let length = draw.below(32).min(bytes.len() - at.max(from));
            bytes.copy_within(from..from + length, at);
        }
        4 => bytes[at] = [0x3f, 0x7f, 0xbf, 0xff, 0x40, 0x80, 0x00, 0x01][draw.below(8)],
        _ => bytes[at] = draw.byte(),
    }
}

/// A key of the tray, its neighbour, or any key. The tray may be any bytes.
pub fn key_near(draw: &mut impl Draw, tray: &[u8]) -> [u8; 8] {
    let head = 4 + 2 * usize::from(tray.first().copied().unwrap_or(0));
    let records = tray.get(head..).unwrap_or(&[]).as_chunks::<RECORD_SIZE>().0;
    let choice = draw.below(8);
    if records.is_empty() || choice == 0 {
        return draw.wide().to_be_bytes();
    }
    let record = &records[draw.below(records.len())];
    let number = u64::from_be_bytes(*record.first_chunk().expect("a record has a key"));
    match choice {
        1 => number.wrapping_add(1).to_be_bytes(),
        2 => number.wrapping_sub(1).to_be_bytes(),
        _ => number.to_be_bytes(),
    }
}

/// A cursor: one that belongs, such a one with a number changed, the end, or numbers at random.
pub fn cursor(draw: &mut impl Draw, tray: &[u8], index: &[u8]) -> Numbers {
    let segments = index.get(4..8).map_or(0, |s| s.iter().fold(0, |sum, &byte| sum * 256 + usize::from(byte)));
    let d = index.get(1).map_or(1, |&d| usize::from(d).max(1));
    let choice = draw.below(8);
    let mut cursor = match choice {
        0 => std::array::from_fn(|_| u16::from_be_bytes([draw.byte(), draw.byte()])),
        1 => std::array::from_fn(|at| [(segments >> 16) as u16, segments as u16].get(at).copied().unwrap_or(0)),
        _ => {
            let (segment, selector) = (draw.below(segments.max(1)), draw.below(d));
            naive::cursor_at(tray, index, segment, selector).unwrap_or([0; 66])
        }
    };
    if choice == 2 {
        let at = draw.below(66);
        cursor[at] = cursor[at].wrapping_add([1, 0xffff, 64, 0x8000][draw.below(4)]);
    }
    cursor
}
