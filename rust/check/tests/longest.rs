//! The longest trays: 63 runs of 4,096 records, 6,451,330 bytes, with keys in one run each, in all of them, and in a few.

mod common;

use common::{key, seeded, segments_of};
use kanyorith::index_bound;
use kanyorith_check::Answer;
use kanyorith_check::samples::{Draw, Record, Rng, gone, live, tray_of};
use kanyorith_check::{compare, naive};

const RUNS: usize = 63;
const RECORDS: usize = 4096;

/// A tray whose run r has the keys that `number` gives for r and each place.
fn longest(rng: &mut Rng, number: impl Fn(usize, usize) -> usize) -> Vec<u8> {
    let record = |rng: &mut Rng, number: usize| {
        let key = key(number as u64 * 8);
        if rng.chance(5) { gone(key) } else { live(key, rng) }
    };
    let runs: Vec<Vec<Record>> =
        (0..RUNS).map(|r| (0..RECORDS).map(|place| record(rng, number(r, place))).collect()).collect();
    let tray = tray_of(&runs);
    assert_eq!(tray.len(), 6_451_330);
    tray
}

/// Check, build, read and fold a tray of full length: every answer and byte is the twin's, and what is read is the merge.
fn all_calls(rng: &mut Rng, tray: &[u8], d: u64, keys: usize) {
    assert_eq!(compare::check_tray(tray), Answer::ok((RUNS * RECORDS) as u64));
    let built = compare::build(tray, d, index_bound(tray, d));
    let length = built.answer.figure as usize;
    let index = &built.out[..length];
    assert_eq!(built.answer, Answer::ok(length as u64));
    assert_eq!(compare::check_index(tray, index), Answer::ok(segments_of(index) as u64));
    assert_eq!(compare::build(tray, d, length).answer, Answer::ok(length as u64));
    assert_eq!(compare::build(tray, d, length - 1).answer, Answer::refused(7, length as u64));

    let visible = naive::visible(tray);
    let listing = visible.as_flattened();
    let from = compare::seek(tray, index, &[0; 8]).cursor;
    let page = compare::page(tray, index, &from, listing.len());
    assert_eq!((page.answer, page.count), (Answer::ok(0), visible.len() as u64));
    assert_eq!(page.out, listing);
    assert_eq!(compare::sheet(tray, index, &[0], listing.len()).out, listing);
    let short = compare::sheet(tray, index, &[0], listing.len() - 1);
    assert_eq!(short.answer, Answer::refused(7, listing.len() as u64));

    for _ in 0..200 {
        let record = &visible[rng.below(visible.len())];
        let sought = *record.first_chunk().expect("a key");
        assert_eq!(compare::get(tray, index, &sought).value, record[8..]);
        let stop = compare::seek(tray, index, &sought);
        compare::next(tray, index, &stop.cursor);
        compare::sheet(tray, index, &sought[..7], 24 * 256);
    }

    let all = compare::fold(tray, 0, 62, tray.len()).answer;
    assert_eq!(all, if keys > RECORDS { Answer::refused(12, keys as u64) } else { Answer::ok(6 + 25 * keys as u64) });
    assert_eq!(compare::fold(tray, 62, 62, tray.len()).answer, Answer::ok(tray.len() as u64));
    assert_eq!(compare::fold(tray, 62, 62, tray.len() - 1).answer, Answer::refused(7, tray.len() as u64));
}

/// Every key is in one run: the view is the longest, and a fold of all is too long.
#[test]
fn each_key_in_one_run() {
    let mut rng = seeded(501);
    let tray = longest(&mut rng, |r, place| place * RUNS + (r * 37 + place * 11) % RUNS);
    all_calls(&mut rng, &tray, 64, RUNS * RECORDS);
}

/// Every key is in every run: segments of 63 of 64 selectors, a fold of all fits to the record.
#[test]
fn each_key_in_every_run() {
    let mut rng = seeded(502);
    let tray = longest(&mut rng, |_, place| place);
    all_calls(&mut rng, &tray, 64, RECORDS);
}

/// Runs side by side, and the largest segments.
#[test]
fn runs_that_do_not_meet() {
    let mut rng = seeded(503);
    let tray = longest(&mut rng, |r, place| (62 - r) * RECORDS + place);
    all_calls(&mut rng, &tray, 128, RUNS * RECORDS);
}

/// Keys in two to three runs, and the smallest segments.
#[test]
fn keys_in_a_few_runs() {
    let mut rng = seeded(504);
    let tray = longest(&mut rng, |r, place| place * 24 + r % 24);
    all_calls(&mut rng, &tray, 63, 24 * RECORDS);
}

/// More than 65,536 segments, one for each key: the segment takes more than 16 bits in cursors and in figures.
#[test]
fn segments_past_16_bits() {
    const MANY: usize = 17;
    let mut rng = seeded(505);
    let runs: Vec<Vec<Record>> =
        (0..MANY).map(|r| (0..RECORDS).map(|place| live(key((place * MANY + r) as u64), &mut rng)).collect()).collect();
    let tray = tray_of(&runs);
    let records = MANY * RECORDS;
    let mut index = naive::cut_index(&tray, MANY, || true);
    assert_eq!(compare::check_index(&tray, &index), Answer::ok(records as u64));

    // Seek, next and page to both sides of segment 65,536, and to the last.
    for sought in [65_535, 65_536, 65_537, records - 1] {
        let stop = compare::seek(&tray, &index, &key(sought as u64));
        assert_eq!((stop.answer, stop.run, stop.place), (Answer::ok(1), (sought % MANY) as u8, (sought / MANY) as u16));
        assert_eq!((stop.cursor[0], stop.cursor[1]), ((sought >> 16) as u16, sought as u16));
        let next = compare::next(&tray, &index, &stop.cursor);
        assert_eq!(next.answer, Answer::ok(u64::from(sought + 1 < records)));
        let page = compare::page(&tray, &index, &stop.cursor, 24 * 3);
        assert_eq!(page.count as usize, 3.min(records - sought));
        // With the high half left off the cursor stands at another segment, where its places don't fit.
        let mut halved = stop.cursor;
        halved[0] ^= 1;
        let figure = u64::from(halved[0]) * 65_536 + u64::from(halved[1]);
        assert_eq!(compare::next(&tray, &index, &halved).answer, Answer::refused(11, figure));
    }

    // A wrong segment and a lost walk past 65,536.
    let at = common::selectors_at(&index, 66_000);
    index[at] = MANY as u8;
    assert_eq!(compare::check_index(&tray, &index), Answer::refused(5, 66_000));
    assert_eq!(compare::get(&tray, &index, &key(66_000)).answer, Answer::refused(10, 66_000 * 128));
}
