//! Get, seek, next, page and sheet: through accepted indexes they give the full merge, whoever built them; through damaged ones they
//! follow the walk's rules as the twin does.

mod common;

use common::{SHAPES, TINY, index as index_of, key, seeded, segments_of, tray as tray_of};
use kanyorith_check::Answer;
use kanyorith_check::raw::Numbers;
use kanyorith_check::samples::{Draw, Rng, Shape, cursor, damage, index, key_near, tray};
use kanyorith_check::{compare, naive};

/// The cursor from which everything is read.
fn first(tray: &[u8], index: &[u8]) -> Numbers {
    compare::seek(tray, index, &[0; 8]).cursor
}

/// The listing that pages of a room give, put together. Each page that says more has filled its room.
fn paged(tray: &[u8], index: &[u8], room: usize) -> Vec<u8> {
    let mut listing = Vec::new();
    let mut cursor = first(tray, index);
    loop {
        let page = compare::page(tray, index, &cursor, room);
        assert_eq!(page.answer.number, 0);
        let written = page.count as usize * 24;
        listing.extend(&page.out[..written]);
        assert!(compare::untouched(&page.out, written));
        if page.answer.figure == 0 {
            return listing;
        }
        assert_eq!(page.count as usize, room / 24, "a page that says more has filled its room");
        cursor = page.cursor;
    }
}

/// Pages of any room of a record or more list the visible records, through an index that is built or cut in any way.
#[test]
fn pages_list_the_merge() {
    let mut rng = seeded(301);
    for round in 0..1200 {
        let tray = tray(&mut rng, &SHAPES[round % SHAPES.len()]);
        let index = index(&mut rng, &tray);
        let room = 24 + rng.below(24 * 40);
        assert_eq!(paged(&tray, &index, room), naive::visible(&tray).as_flattened());
    }
}

/// Next from the first record goes through the visible records one by one, to the end, and stays there.
#[test]
fn next_lists_the_merge() {
    let mut rng = seeded(302);
    for round in 0..300 {
        let tray = tray(&mut rng, &SHAPES[round % SHAPES.len()]);
        let index = index(&mut rng, &tray);
        let visible = naive::visible(&tray);
        let mut stop = compare::seek(&tray, &index, &[0; 8]);
        for record in &visible {
            assert_eq!(stop.answer, Answer::ok(1));
            let page = compare::page(&tray, &index, &stop.cursor, 24);
            assert_eq!(page.out, record);
            stop = compare::next(&tray, &index, &stop.cursor);
        }
        assert_eq!(stop.answer, Answer::ok(0));
        let again = compare::next(&tray, &index, &stop.cursor);
        assert_eq!((again.answer, again.cursor), (Answer::ok(0), stop.cursor));
    }
}

/// Get gives the value of each visible key and no other; seek stands at the first visible key at or above the one asked for.
#[test]
fn get_and_seek_give_the_merge() {
    let mut rng = seeded(303);
    for round in 0..600 {
        let tray = tray(&mut rng, &SHAPES[round % SHAPES.len()]);
        let index = index(&mut rng, &tray);
        let visible = naive::visible(&tray);
        for _ in 0..30 {
            let sought = key_near(&mut rng, &tray);
            let at_or_above = visible.iter().find(|record| record[..8] >= sought[..]);
            let stop = compare::seek(&tray, &index, &sought);
            assert_eq!(stop.answer, Answer::ok(u64::from(at_or_above.is_some())));
            let page = compare::page(&tray, &index, &stop.cursor, 24);
            assert_eq!(page.out[..page.count as usize * 24], *at_or_above.map_or(&[][..], |record| &record[..]));
            let got = compare::get(&tray, &index, &sought);
            let there = at_or_above.filter(|record| record[..8] == sought[..]);
            assert_eq!(got.answer, Answer::ok(u64::from(there.is_some())));
            if let Some(record) = there {
                assert_eq!(got.value, record[8..]);
            }
        }
    }
}

/// Sheet lists the visible keys that begin with the prefix, for prefixes of every length.
#[test]
fn sheet_gives_the_merge() {
    let mut rng = seeded(304);
    for round in 0..600 {
        let tray = tray(&mut rng, &SHAPES[round % SHAPES.len()]);
        let index = index(&mut rng, &tray);
        let visible = naive::visible(&tray);
        for _ in 0..16 {
            let prefix = &key_near(&mut rng, &tray)[..1 + rng.below(8)];
            let expected: Vec<u8> =
                visible.iter().filter(|record| record.starts_with(prefix)).flatten().copied().collect();
            let listed = compare::sheet(&tray, &index, prefix, expected.len());
            if prefix.ends_with(&[255]) {
                assert_eq!(listed.answer, Answer::refused(9, prefix.len() as u64));
            } else {
                assert_eq!(listed.answer, Answer::ok(expected.len() as u64 / 24));
                assert_eq!(listed.out, expected);
            }
        }
    }
}

/// Sheets of some hundred records, around the 512 that sheet can remember and up to three times as many: in room for all of them, in a byte
/// less, and through an index that is damaged anywhere in them.
#[test]
fn sheets_remembered_or_not_give_the_merge() {
    let mut rng = seeded(312);
    let (mut short, mut long) = (0, 0);
    for _ in 0..400 {
        let records = 100 + rng.below(500);
        let shape = Shape { runs: 4, records, keys: 3 * records, gone: 5, empty: 0 };
        let tray = tray(&mut rng, &shape);
        let mut index = index(&mut rng, &tray);
        let expected = naive::visible(&tray);
        let need = 24 * expected.len();
        let listed = compare::sheet(&tray, &index, &[0], need);
        assert_eq!(listed.answer, Answer::ok(expected.len() as u64));
        assert_eq!(listed.out, expected.as_flattened());
        if need > 0 {
            assert_eq!(compare::sheet(&tray, &index, &[0], need - 1).answer, Answer::refused(7, need as u64));
        }
        damage(&mut rng, &mut index);
        compare::sheet(&tray, &index, &[0], need);
        if expected.len() <= 512 { short += 1 } else { long += 1 }
    }
    assert!(short > 50 && long > 50, "{short} sheets of at most 512 records, {long} of more");
}

/// Pages and sheets in every room from 0 to past the need.
#[test]
fn listings_in_every_room() {
    let mut rng = seeded(305);
    for round in 0..10 {
        let tray = tray(&mut rng, &SHAPES[round % 2]);
        let index = index(&mut rng, &tray);
        let cursor = first(&tray, &index);
        let all = naive::visible(&tray).len();
        let sheet = &key_near(&mut rng, &tray)[..6];
        for room in 0..24 * all + 30 {
            let page = compare::page(&tray, &index, &cursor, room);
            assert_eq!(page.count as usize, all.min(room / 24));
            assert_eq!(page.answer, Answer::ok(u64::from(room / 24 < all)));
            for prefix in [&[0][..], sheet] {
                let listed = compare::sheet(&tray, &index, prefix, room);
                assert!(listed.answer.number != 7 || compare::untouched(&listed.out, 0));
                assert!(listed.answer.number == 7 || room as u64 >= listed.answer.figure * 24);
            }
        }
    }
}

/// Each cursor of an accepted index: it belongs, and page from it is the listing after it; with one place changed it doesn't belong.
#[test]
fn every_cursor_of_an_index() {
    let mut rng = seeded(306);
    for _ in 0..40 {
        let tray = tray(&mut rng, &SHAPES[0]);
        let index = index(&mut rng, &tray);
        for g in 0..segments_of(&index) {
            for j in 0..usize::from(index[1]) {
                let cursor = naive::cursor_at(&tray, &index, g, j).expect("places of 16 bits");
                assert_eq!(compare::page(&tray, &index, &cursor, 100).answer.number, 0);
                assert_eq!(compare::next(&tray, &index, &cursor).answer.number, 0);
                let mut changed = cursor;
                let at = 3 + rng.below(63);
                changed[at] = changed[at].wrapping_add(1 + rng.below(0xffff) as u16);
                let refused = compare::next(&tray, &index, &changed);
                assert_eq!(refused.answer, Answer::refused(11, g as u64));
                assert_eq!(refused.cursor, changed, "a refused next leaves the cursor");
                let refused = compare::page(&tray, &index, &changed, 100);
                assert_eq!((refused.answer, refused.count), (Answer::refused(11, g as u64), 0));
                assert!(refused.cursor == changed && compare::untouched(&refused.out, 0));
            }
        }
    }
}

/// The end is (S, 0, all zero), and none of its neighbours is.
#[test]
fn the_end_and_its_neighbours() {
    let tray = tray_of(&["1 2 3", "2 4"]);
    let index = compare::build(&tray, 2, 1000);
    let index = &index.out[..index.answer.figure as usize];
    let segments = segments_of(index) as u16;
    let mut end = [0; 66];
    end[1] = segments;
    assert_eq!(compare::next(&tray, index, &end).answer, Answer::ok(0));
    assert_eq!(compare::page(&tray, index, &end, 100).answer, Answer::ok(0));
    for at in 0..66 {
        let mut cursor = end;
        cursor[at] += 1;
        let figure = u64::from(cursor[0]) * 65536 + u64::from(cursor[1]);
        assert_eq!(compare::next(&tray, index, &cursor).answer, Answer::refused(11, figure), "number {at}");
        assert_eq!(compare::page(&tray, index, &cursor, 100).answer, Answer::refused(11, figure), "number {at}");
    }
}

/// Every call from every key, cursor and prefix through one index.
fn read_all(rng: &mut Rng, tray: &[u8], index: &[u8]) {
    let sought = key_near(rng, tray);
    compare::get(tray, index, &sought);
    compare::seek(tray, index, &sought);
    let from = cursor(rng, tray, index);
    compare::next(tray, index, &from);
    let room = rng.below(24 * 12);
    compare::page(tray, index, &from, room);
    let prefix = &sought[..1 + rng.below(8)];
    compare::sheet(tray, index, prefix, room);
}

/// Every byte of a tiny index with every value, accepted or not: all reading calls agree with the twin.
#[test]
fn every_byte_of_an_index_is_read_as_the_twin_does() {
    let mut rng = seeded(307);
    for _ in 0..6 {
        let tray = tray(&mut rng, &TINY);
        let mut index = index(&mut rng, &tray);
        for at in 0..index.len().min(300) {
            let kept = index[at];
            for value in 0..=255 {
                index[at] = value;
                read_all(&mut rng, &tray, &index);
            }
            index[at] = kept;
        }
    }
}

/// Indexes damaged one to eight times, and trays with them.
#[test]
fn damaged_indexes_are_read_as_the_twin_does() {
    let mut rng = seeded(308);
    for round in 0..12_000 {
        let mut tray = tray(&mut rng, &SHAPES[round % SHAPES.len()]);
        let mut index = index(&mut rng, &tray);
        for _ in 0..1 + rng.below(8) {
            damage(&mut rng, &mut index);
        }
        read_all(&mut rng, &tray, &index);
        damage(&mut rng, &mut tray);
        read_all(&mut rng, &tray, &index);
    }
}

/// An index of drawn anchors, offsets and selectors with a right frame.
fn wild_index(rng: &mut Rng, h: usize, counts: &[u16]) -> Vec<u8> {
    let d = h + rng.below(6);
    let segments = rng.below(5);
    let mut index = vec![h as u8, d as u8, 0, 0, 0, 0, 0, segments as u8];
    for _ in 0..segments {
        index.extend(key(rng.below(80) as u64));
        for count in counts {
            let near = [0, *count, count.wrapping_sub(1), rng.below(8) as u16, 65_535][rng.below(5)];
            index.extend(near.to_be_bytes());
        }
        for _ in 0..d {
            let mark = [0, 0, 0, 0x40, 0x80, 0xc0][rng.below(6)];
            let selector = if rng.chance(5) { rng.byte() } else { rng.below(h) as u8 | mark };
            index.push(if rng.chance(20) { 0x3f } else { selector });
        }
    }
    index
}

/// Indexes that nobody built: keys in any order, placeholders between records, offsets past the runs. All calls agree with the twin.
#[test]
fn wild_indexes_are_read_as_the_twin_does() {
    let mut rng = seeded(309);
    let mut numbers = [0; 13];
    let mut kept = 0;
    for round in 0..40_000 {
        let tray = tray(&mut rng, &SHAPES[round % 3]);
        let h = usize::from(tray[0]);
        let counts: Vec<u16> =
            tray[4..4 + 2 * h].as_chunks().0.iter().map(|&count| u16::from_be_bytes(count)).collect();
        let index = wild_index(&mut rng, h, &counts);
        read_all(&mut rng, &tray, &index);
        let from = cursor(&mut rng, &tray, &index);
        let page = compare::page(&tray, &index, &from, 240);
        numbers[page.answer.number as usize] += 1;
        kept += u64::from(page.answer.number == 10 && page.count > 0);
    }
    let reached = numbers[0] > 1000 && numbers[10] > 1000 && numbers[11] > 1000 && kept > 1000;
    assert!(reached, "pages by number {numbers:?}, lost after a record {kept}");
}

/// Hand-written damage: what a lost walk says, and what it leaves.
#[test]
fn lost_walks_by_hand() {
    let tray = tray_of(&["1 2 3", "2 4"]);
    let lost = |selectors: &[u8]| index_of(2, selectors.len(), &[(1, &[0, 0], selectors)]);
    // A run that is not there; 7f, bf and ff among them; a run whose records are used up; marked selectors lose a walk too.
    for selector in [0x02, 0x3e, 0x7f, 0xbf, 0xff, 0x42, 0x82] {
        let index = lost(&[0x00, 0x00, selector, 0x00]);
        let page = compare::page(&tray, &index, &first(&tray, &index), 100);
        assert_eq!((page.answer, page.count), (Answer::refused(10, 2), 2), "selector {selector:02x}");
        assert_eq!(page.out[..48], naive::visible(&tray).as_flattened()[..48]);
        assert!(compare::untouched(&page.out, 48));
        assert_eq!(page.cursor, first(&tray, &index), "a refused page leaves the cursor");
        assert_eq!(compare::sheet(&tray, &index, &[0], 0).answer, Answer::refused(10, 2), "10 before 7");
    }
    let used_up = lost(&[0x00, 0x00, 0x00, 0x3f, 0x00]);
    assert_eq!(compare::seek(&tray, &used_up, &key(4)).answer, Answer::refused(10, 4));
    // A full page is lost on the way to the first unwritten record, and keeps what it wrote.
    let page = compare::page(&tray, &used_up, &first(&tray, &used_up), 72);
    assert_eq!((page.answer, page.count), (Answer::refused(10, 4), 3));
    // Next judges the current selector even where it is marked.
    let marked = lost(&[0x00, 0x82]);
    let at = naive::cursor_at(&tray, &marked, 0, 1).expect("it belongs");
    assert_eq!(compare::next(&tray, &marked, &at).answer, Answer::refused(10, 1));
    // Segment and selector make the figure.
    let second = index_of(2, 2, &[(1, &[0, 0], &[0x00, 0x3f]), (2, &[1, 2], &[0x00, 0x01])]);
    assert_eq!(compare::seek(&tray, &second, &key(3)).answer, Answer::refused(10, 128 + 1));
}

/// A walk stays where the marks say, not where the records do: gone records without their mark are listed, keys in any order.
#[test]
fn marks_alone_decide() {
    let tray = tray_of(&["5g", "5 9"]);
    let unmarked = index_of(2, 3, &[(5, &[0, 0], &[0x00, 0x01, 0x01])]);
    let page = compare::page(&tray, &unmarked, &first(&tray, &unmarked), 100);
    assert_eq!((page.answer, page.count), (Answer::ok(0), 3));
    let hidden = index_of(2, 3, &[(5, &[0, 0], &[0x80, 0x81, 0x81])]);
    assert_eq!(compare::seek(&tray, &hidden, &[0; 8]).answer, Answer::ok(0));
    // Sheet doesn't filter: from the seek on it lists every key below the bound, also one below the prefix.
    let backward = index_of(2, 3, &[(0, &[0, 1], &[0x01, 0x00, 0x3f])]);
    let prefix = key(9);
    let listed = compare::sheet(&tray, &backward, &prefix, 100);
    assert_eq!(listed.answer, Answer::ok(2));
    assert_eq!(listed.out[24..32], key(5));
}

/// Belonging is arithmetic and not modulo 2^16: no cursor stands after a place that passes 65,535.
#[test]
fn places_do_not_wrap() {
    let tray = tray_of(&["1 2 3"]);
    let index = index_of(1, 3, &[(1, &[65_535], &[0x00, 0x00, 0x00])]);
    let mut cursor = [0; 66];
    cursor[3] = 65_535;
    assert_eq!(compare::next(&tray, &index, &cursor).answer, Answer::refused(10, 0));
    cursor[2] = 1;
    for place in [0, 65_535] {
        cursor[3] = place;
        assert_eq!(compare::next(&tray, &index, &cursor).answer, Answer::refused(11, 0));
    }
}
