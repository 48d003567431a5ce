//! What the tests share: a generator whose seed is printed, the shapes of trays, and cases written in short.
#![allow(dead_code, reason = "each test uses its part")]

use kanyorith_check::samples::{Record, Rng, Shape, gone, tray_of};

/// A generator for a test; the harness shows the seed with a test that fails.
pub fn seeded(seed: u64) -> Rng {
    println!("seed {seed}");
    Rng::new(seed)
}

/// Few keys and many versions, gone records, empty runs, 63 runs, and runs that hardly meet.
pub const SHAPES: [Shape; 6] = [
    Shape { runs: 3, records: 8, keys: 6, gone: 30, empty: 10 },
    Shape { runs: 8, records: 20, keys: 30, gone: 10, empty: 0 },
    Shape { runs: 8, records: 5, keys: 5, gone: 60, empty: 50 },
    Shape { runs: 63, records: 6, keys: 4, gone: 20, empty: 20 },
    Shape { runs: 63, records: 12, keys: 300, gone: 5, empty: 10 },
    Shape { runs: 2, records: 200, keys: 500, gone: 5, empty: 0 },
];

/// Trays so small that every byte, room and cursor of them can be tried.
pub const TINY: Shape = Shape { runs: 3, records: 4, keys: 5, gone: 30, empty: 10 };

/// The key of a number, as 8 bytes.
pub fn key(number: u64) -> [u8; 8] {
    number.to_be_bytes()
}

/// A run in short: numbers stand for keys, `g` after one for gone. A value tells run and key, so that versions differ.
pub fn run(no: usize, text: &str) -> Vec<Record> {
    text.split_whitespace()
        .map(|word| match word.strip_suffix('g') {
            Some(number) => gone(key(number.parse().expect("a number"))),
            None => {
                let number: u64 = word.parse().expect("a number");
                let mut record = gone(key(number));
                record[8] = 0;
                record[9..17].fill(no as u8 + 1);
                record[17..].copy_from_slice(&key(number));
                record
            }
        })
        .collect()
}

/// A tray in short, newest run first.
pub fn tray(runs: &[&str]) -> Vec<u8> {
    let runs: Vec<Vec<Record>> = runs.iter().enumerate().map(|(no, text)| run(no, text)).collect();
    tray_of(&runs)
}

/// A segment in short: anchor, offsets, selectors.
pub type Segment<'a> = (u64, &'a [u16], &'a [u8]);

/// An index of segments in short.
pub fn index(h: usize, d: usize, segments: &[Segment]) -> Vec<u8> {
    let mut index = vec![h as u8, d as u8, 0, 0];
    index.extend((segments.len() as u32).to_be_bytes());
    for (anchor, offsets, selectors) in segments {
        index.extend(key(*anchor));
        index.extend(offsets.iter().flat_map(|offset| offset.to_be_bytes()));
        index.extend(*selectors);
    }
    index
}

/// Where the selectors of segment `g` start in an index.
pub fn selectors_at(index: &[u8], g: usize) -> usize {
    let (h, d) = (usize::from(index[0]), usize::from(index[1]));
    8 + g * (8 + 2 * h + d) + 8 + 2 * h
}

/// S of an index.
pub fn segments_of(index: &[u8]) -> usize {
    u32::from_be_bytes(*index[4..].first_chunk().expect("a head")) as usize
}
