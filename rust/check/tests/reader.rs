//! The reader: it opens exactly where both frames fit, its calls are those of the package, and its iterators give the merge.

mod common;

use std::collections::HashSet;
use std::ops::{Bound, RangeBounds};
use std::thread;

use common::{SHAPES, index as index_of, key, seeded, tray as tray_of};
use kanyorith::{
    Cursor, Key, Point, Points, Reader, Refusal, build_vec, check_index, get, listing, next, page, seek, sheet,
};
use kanyorith_check::samples::{Draw, Rng, cursor, damage, index, key_near, tray};
use kanyorith_check::{Answer, naive};

/// A tray and an index of it, each of them damaged at times.
fn pair(rng: &mut Rng, round: usize) -> (Vec<u8>, Vec<u8>) {
    let mut tray = tray(rng, &SHAPES[round % SHAPES.len()]);
    let mut index = index(rng, &tray);
    for _ in 0..rng.below(4) {
        damage(rng, &mut index);
    }
    if rng.chance(10) {
        damage(rng, &mut tray);
    }
    (tray, index)
}

/// The visible points of a sound tray, by the twin.
fn visible(tray: &[u8]) -> Vec<Point> {
    listing(naive::visible(tray).as_flattened()).collect()
}

/// The points of an iterator that meets no refusal.
fn all(points: Points) -> Vec<Point> {
    points.map(|point| point.expect("an accepted index")).collect()
}

/// It opens exactly where the twin's get is refused neither by 1 nor by 4, and tells these apart; a lost walk doesn't keep it shut.
#[test]
fn open_tests_the_frames() {
    let mut rng = seeded(801);
    let mut met = HashSet::new();
    for round in 0..20_000 {
        let (tray, index) = pair(&mut rng, round);
        let answer = naive::get(&tray, &index, &key_near(&mut rng, &tray), &mut [0; 16]);
        let expected = match answer {
            Answer { number: 1, .. } => Some(Refusal::TrayFrame),
            Answer { number: 4, .. } => Some(Refusal::IndexFrame),
            _ => None,
        };
        assert_eq!(Reader::open(&tray, &index).err(), expected);
        met.insert(answer.number);
    }
    assert_eq!(met, HashSet::from([0, 1, 4, 10]), "every answer of get is met");
}

/// Tray and index in the wrong order are refused by every call that takes both, and by open.
#[test]
fn two_slices_in_the_wrong_order() {
    let mut rng = seeded(802);
    for round in 0..2000 {
        let tray = tray(&mut rng, &SHAPES[round % SHAPES.len()]);
        let index = index(&mut rng, &tray);
        let mut from = Reader::open(&tray, &index).and_then(|reader| reader.seek(&[0; 8])).expect("accepted").cursor;
        let wrong = Refusal::TrayFrame;
        assert_eq!(Reader::open(&index, &tray).unwrap_err(), wrong);
        assert_eq!(check_index(&index, &tray), Err(wrong));
        assert_eq!(get(&index, &tray, &[0; 8]), Err(wrong));
        assert_eq!(seek(&index, &tray, &[0; 8]), Err(wrong));
        assert_eq!(next(&index, &tray, &from), Err(wrong));
        assert_eq!(page(&index, &tray, &mut from, &mut [0; 24]).unwrap_err().refusal, wrong);
        assert_eq!(sheet(&index, &tray, &[0; 6], &mut [0; 24]), Err(wrong));
    }
}

/// Each call of a reader answers and writes what the free call does, through damaged indexes too.
#[test]
fn calls_of_a_reader() {
    let mut rng = seeded(803);
    let mut opened = 0;
    for round in 0..5000 {
        let (tray, index) = pair(&mut rng, round);
        let Ok(reader) = Reader::open(&tray, &index) else {
            continue;
        };
        opened += 1;
        assert_eq!((reader.tray(), reader.index()), (&tray[..], &index[..]));
        let sought = key_near(&mut rng, &tray);
        let from = Cursor::from_numbers(cursor(&mut rng, &tray, &index));
        let room = rng.below(200);
        assert_eq!(reader.check(), check_index(&tray, &index));
        assert_eq!(reader.get(&sought), get(&tray, &index, &sought));
        assert_eq!(reader.seek(&sought), seek(&tray, &index, &sought));
        assert_eq!(reader.next(&from), next(&tray, &index, &from));
        let (mut by_reader, mut by_call) = ((from, vec![7; room]), (from, vec![7; room]));
        assert_eq!(
            reader.page(&mut by_reader.0, &mut by_reader.1),
            page(&tray, &index, &mut by_call.0, &mut by_call.1)
        );
        assert_eq!(by_reader, by_call);
        let (mut by_reader, mut by_call) = (vec![7; room], vec![7; room]);
        assert_eq!(reader.sheet(&sought[..6], &mut by_reader), sheet(&tray, &index, &sought[..6], &mut by_call));
        assert_eq!(by_reader, by_call);
    }
    assert!(opened > 3000, "{opened} pairs were opened");
}

/// A bound of any kind at a key of the tray, next to one, or at an end of all keys.
fn bound(rng: &mut Rng, tray: &[u8]) -> Bound<Key> {
    let key = match rng.below(8) {
        0 => [0; 8],
        1 => [255; 8],
        _ => key_near(rng, tray),
    };
    [Bound::Included(key), Bound::Excluded(key), Bound::Unbounded][rng.below(3)]
}

/// A range gives the visible points whose keys it contains, whatever its bounds; bounds the wrong way round give none.
#[test]
fn ranges_are_the_merge_between_bounds() {
    let mut rng = seeded(804);
    let (mut empty, mut listed) = (0, 0);
    for round in 0..6000 {
        let tray = tray(&mut rng, &SHAPES[round % SHAPES.len()]);
        let index = index(&mut rng, &tray);
        let reader = Reader::open(&tray, &index).expect("an accepted index");
        let range = (bound(&mut rng, &tray), bound(&mut rng, &tray));
        let expected: Vec<Point> = visible(&tray).into_iter().filter(|point| range.contains(&point.key)).collect();
        empty += u32::from(expected.is_empty());
        listed += expected.len();
        assert_eq!(all(reader.range(range)), expected, "{range:?}");
    }
    assert!(empty > 500 && listed > 5000, "{empty} empty ranges, {listed} points");
}

/// The forms in which ranges are commonly written, and the first and the last of all keys.
#[test]
fn ranges_as_they_are_written() {
    let tray = tray_of(&[&format!("0 5 9 {}", u64::MAX)]);
    let index = build_vec(&tray, 3).expect("a sound tray");
    let reader = Reader::open(&tray, &index).expect("an accepted index");
    let keys = |points: Points| -> Vec<u64> { all(points).iter().map(|point| u64::from_be_bytes(point.key)).collect() };
    assert_eq!(keys(reader.range(..)), [0, 5, 9, u64::MAX]);
    assert_eq!(keys(reader.range(key(5)..)), [5, 9, u64::MAX]);
    assert_eq!(keys(reader.range(key(6)..key(9))), [0; 0]);
    assert_eq!(keys(reader.range(key(5)..key(9))), [5]);
    assert_eq!(keys(reader.range(key(5)..=key(9))), [5, 9]);
    assert_eq!(keys(reader.range(..key(9))), [0, 5]);
    assert_eq!(keys(reader.range(..=[255; 8])), [0, 5, 9, u64::MAX]);
    assert_eq!(keys(reader.range(..[255; 8])), [0, 5, 9]);
    assert_eq!(keys(reader.range([255; 8]..)), [u64::MAX]);
    assert_eq!(keys(reader.range((Bound::Excluded([255; 8]), Bound::Unbounded))), [0; 0]);
    assert_eq!(keys(reader.range((Bound::Excluded([0; 8]), Bound::Included(key(5))))), [5]);
    assert_eq!(keys(reader.range(key(9)..key(5))), [0; 0]);
    let (from, to) = (key(5), key(9));
    assert_eq!(keys(reader.range(&from..&to)), [5]);
}

/// All points, by each of the ways to ask for them.
#[test]
fn everything_is_the_merge() {
    let mut rng = seeded(805);
    for round in 0..600 {
        let tray = tray(&mut rng, &SHAPES[round % SHAPES.len()]);
        let index = index(&mut rng, &tray);
        let reader = Reader::open(&tray, &index).expect("an accepted index");
        let expected = visible(&tray);
        assert_eq!(all(reader.iter()), expected);
        assert_eq!(all((&reader).into_iter()), expected);
        assert_eq!(all(reader.into_iter()), expected);
    }
}

/// The points of a prefix are what sheet lists, and where sheet is refused, damaged index or not, they end in the same refusal.
#[test]
fn a_prefix_gives_the_sheet() {
    let mut rng = seeded(806);
    let mut met = HashSet::new();
    for round in 0..20_000 {
        let (tray, index) = pair(&mut rng, round);
        let Ok(reader) = Reader::open(&tray, &index) else {
            continue;
        };
        let mut prefix = key_near(&mut rng, &tray).to_vec();
        prefix.push(255);
        prefix.truncate(rng.below(10));
        let mut out = vec![0; tray.len() + index.len() * 24];
        let listed: Result<Vec<Point>, Refusal> = reader.prefix(&prefix).and_then(Iterator::collect);
        let whole = sheet(&tray, &index, &prefix, &mut out).map(|count| listing(&out[..count * 24]).collect());
        met.insert(whole.as_ref().map_or_else(Refusal::number, |_| 0));
        assert_eq!(listed, whole);
    }
    assert_eq!(met, HashSet::from([0, 8, 9, 10]), "every answer of sheet but the room's is met");
}

/// An iterator over more than a page, and after its end: none, again and again.
#[test]
fn points_over_many_pages() {
    let many: String = (0..4000).map(|number| format!("{} ", number * 3)).collect();
    let tray = tray_of(&["5", &many]);
    let index = build_vec(&tray, 7).expect("a sound tray");
    let mut points = Reader::open(&tray, &index).expect("an accepted index").iter();
    assert_eq!(points.by_ref().count(), 4001);
    assert!(points.next().is_none() && points.next().is_none());
}

/// A lost walk comes after the points before it, once, and ends the iteration; where the walk is lost at once, it is the only item.
#[test]
fn lost_walks_are_items() {
    let tray = tray_of(&["1 2 3"]);
    let index = index_of(1, 4, &[(1, &[0], &[0x00, 0x00, 0x05, 0x00])]);
    let reader = Reader::open(&tray, &index).expect("the frames fit");
    let lost = Refusal::Lost { segment: 0, selector: 2 };
    let items =
        |points: Points| -> Vec<Result<Key, Refusal>> { points.map(|point| point.map(|point| point.key)).collect() };
    assert_eq!(items(reader.iter()), [Ok(key(1)), Ok(key(2)), Err(lost)]);
    assert_eq!(items(reader.range(key(3)..)), [Err(lost)]);
    assert_eq!(items(reader.range(..key(2))), [Ok(key(1))], "a loss past the bound is none");
    assert_eq!(items(reader.range(key(3)..key(3))), [], "no walk, no loss");
}

/// A reader is a copy of two slices: points outlive it, threads share it, and it shows lengths and not bytes.
#[test]
fn a_reader_is_two_slices() {
    fn first(tray: &'static [u8], index: &'static [u8]) -> Points<'static> {
        let reader = Reader::open(tray, index).expect("an accepted index");
        reader.prefix(&[0, 0, 0, 0, 0, 7]).expect("a prefix")
    }
    let tray: &[u8] = include_bytes!("../../kanyorith/examples/sample.tray");
    let index: &[u8] = include_bytes!("../../kanyorith/examples/sample.index");
    assert_eq!(first(tray, index).count(), 2);
    let reader = Reader::open(tray, index).expect("an accepted index");
    thread::scope(|scope| {
        let other = scope.spawn(move || reader.iter().count());
        assert_eq!(reader.iter().count(), 2);
        assert_eq!(other.join().expect("the thread ends"), 2);
    });
    assert_eq!(format!("{reader:?}"), "Reader { tray: 83 bytes, index: 24 bytes }");
    assert_eq!(format!("{:?}", reader.iter()), "Points { reader: Reader { tray: 83 bytes, index: 24 bytes }, .. }");
}
