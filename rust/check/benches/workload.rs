//! The trays that are measured: full runs of 4,096 records, keys in 1 to 4 runs, one record in twenty gone, 200 points a sheet.

use kanyorith_check::naive;
use kanyorith_check::samples::{Draw, Record, Rng, gone, live, tray_of};

/// Points of a sheet before the gone ones are taken out.
const POINTS: u64 = 200;

/// A tray, an index of it, and what to ask of them.
pub struct Workload {
    pub h: usize,
    pub d: usize,
    pub records: usize,
    pub tray: Vec<u8>,
    pub index: Vec<u8>,
    /// Everything that is visible, as a listing.
    pub listing: Vec<u8>,
    /// Keys to get and to seek: nine in ten of the tray, gone ones among them, the others between keys.
    pub keys: Vec<[u8; 8]>,
    /// Sheets to list.
    pub sheets: Vec<[u8; 6]>,
}

/// The key of the n-th point: sheets 5 apart, points 3 apart.
fn key(n: u64) -> [u8; 8] {
    ((7 + n / POINTS * 5) << 16 | (n % POINTS * 3 + 1)).to_be_bytes()
}

/// Runs of `records` each: key after key goes to 1 to 4 of the runs that are not full.
fn runs(rng: &mut Rng, h: usize, records: usize) -> Vec<Vec<Record>> {
    let mut runs: Vec<Vec<Record>> = vec![Vec::with_capacity(records); h];
    let mut open: Vec<usize> = (0..h).collect();
    let mut n = 0;
    while !open.is_empty() {
        let versions = (1 + rng.below(4)).min(open.len());
        for at in 0..versions {
            let other = at + rng.below(open.len() - at);
            open.swap(at, other);
            let record = if rng.chance(5) { gone(key(n)) } else { live(key(n), rng) };
            runs[open[at]].push(record);
        }
        open.retain(|&run| runs[run].len() < records);
        n += 1;
    }
    runs
}

impl Workload {
    /// A tray of `h` runs of `records` each, with its index for segments of `d` selectors.
    pub fn new(h: usize, records: usize, d: usize, seed: u64) -> Self {
        let mut rng = Rng::new(seed);
        let tray = tray_of(&runs(&mut rng, h, records));
        let index = naive::cut_index(&tray, d, || false);
        let listing = naive::visible(&tray).into_flattened();
        let all = &tray[4 + 2 * h..];
        let mut keys = Vec::new();
        for _ in 0..1000 {
            let record = &all.as_chunks::<25>().0[rng.below(h * records)];
            let number = u64::from_be_bytes(*record.first_chunk().expect("a key"));
            keys.push((number + u64::from(rng.chance(10))).to_be_bytes());
        }
        let sheet = |key: &[u8; 8]| *key.first_chunk().expect("a sheet");
        let sheets = keys.iter().take(64).map(sheet).collect();
        Workload { h, d, records: h * records, tray, index, listing, keys, sheets }
    }
}
