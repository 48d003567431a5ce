//! The safe calls of the package: typed refusals, and answers as values.

mod common;

use std::error::Error;

use common::{SHAPES, index as index_of, key, seeded, tray as tray_of};
use kanyorith::{
    Cursor, PageRefused, Place, Refusal, RunNo, build, build_vec, check_index, check_tray, fold, fold_vec, get,
    index_bound, listing, next, page, seek, sheet,
};
use kanyorith_check::naive;
use kanyorith_check::samples::{SAMPLE_TRAY, tray};

/// Each refusal comes as its own case, with the number, the figure and the sentence of the table.
#[test]
fn every_refusal_has_its_type() {
    let tray = tray_of(&["1 2", "2"]);
    let index = build_vec(&tray, 2).expect("a sound tray");
    let lost = index_of(2, 2, &[(1, &[0, 0], &[0x00, 0x02])]);
    let strange = Cursor::from_numbers([7; 66]);
    let many: String = (0..4096).map(|number| format!("{number} ")).collect();
    let long = tray_of(&[&many, "5000"]);
    let out = &mut [0; 10];
    // What was refused, the case, its number, its figure and a part of its sentence.
    let rows: [(Refusal, Refusal, u32, u64, &str); 14] = [
        (check_tray(&[]).unwrap_err(), Refusal::TrayFrame, 1, 0, "header"),
        (check_tray(&tray_of(&["1", "2 2"])).unwrap_err(), Refusal::KeyOrder { record: 2 }, 2, 2, "record 2"),
        (check_tray(&tray_with_kind(2)).unwrap_err(), Refusal::RecordKind { record: 0 }, 3, 0, "record 0"),
        (check_index(&tray, &[]).unwrap_err(), Refusal::IndexFrame, 4, 0, "index"),
        (check_index(&tray, &lost).unwrap_err(), Refusal::Segment { segment: 0 }, 5, 0, "segment 0"),
        (build(&tray, 129, out).unwrap_err(), Refusal::SegmentSize { d: 129 }, 6, 129, "129"),
        (build(&tray, 2, out).unwrap_err(), Refusal::Room { needed: 36 }, 7, 36, "36 bytes are needed"),
        (fold(&tray, 0, 2, out).unwrap_err(), Refusal::FoldBounds { last: 2 }, 8, 2, "the last is 2"),
        (sheet(&tray, &index, &[], out).unwrap_err(), Refusal::PrefixLength { length: 0 }, 8, 0, "has 0 bytes"),
        (sheet(&tray, &index, &[1; 9], out).unwrap_err(), Refusal::PrefixLength { length: 9 }, 8, 9, "has 9 bytes"),
        (sheet(&tray, &index, &[255], out).unwrap_err(), Refusal::PrefixEnd { length: 1 }, 9, 1, "255"),
        (
            seek(&tray, &lost, &key(9)).unwrap_err(),
            Refusal::Lost { segment: 0, selector: 1 },
            10,
            1,
            "selector 1 of segment 0",
        ),
        (
            next(&tray, &index, &strange).unwrap_err(),
            Refusal::Cursor { segment: 7 * 65536 + 7 },
            11,
            7 * 65536 + 7,
            "does not belong",
        ),
        (fold_vec(&long, 0, 1).unwrap_err(), Refusal::RunLength { count: 4097 }, 12, 4097, "4097 records"),
    ];
    for (refusal, case, number, figure, part) in rows {
        assert_eq!(refusal, case);
        assert_eq!((refusal.number(), refusal.figure()), (number, figure));
        assert!(refusal.to_string().contains(part), "{refusal}");
    }
}

fn tray_with_kind(kind: u8) -> Vec<u8> {
    let mut tray = tray_of(&["1"]);
    tray[6 + 8] = kind;
    tray
}

/// The worked example of docs/FORMAT.md, call by call.
#[test]
fn sample_tray() -> Result<(), Box<dyn Error>> {
    let index = build_vec(SAMPLE_TRAY, 4)?;
    assert_eq!(index, index_of(2, 4, &[(0x0007_0001, &[0, 0], &[0x00, 0x81, 0x01, 0x3f])]));
    let mut out = [0; 48];
    assert_eq!(sheet(SAMPLE_TRAY, &index, &[0, 0, 0, 0, 0, 7], &mut out)?, 2);
    let listed: Vec<_> = listing(&out).collect();
    assert_eq!([listed[0].number(), listed[1].number()], [1, 2]);
    assert!(listed.iter().all(|point| point.sheet() == [0, 0, 0, 0, 0, 7]));
    assert_eq!((listed[0].column(), listed[0].row()), (800, 400));
    assert_eq!((listed[0].longitude(), listed[0].latitude()), (1, 2));
    assert_eq!((listed[1].longitude(), listed[1].latitude()), (0, -1));
    assert_eq!(get(SAMPLE_TRAY, &index, &listed[1].key)?, Some(listed[1].value));
    let stop = seek(SAMPLE_TRAY, &index, &listed[1].key)?;
    assert_eq!(stop.record, Some((RunNo(1), Place(1))));
    assert_eq!(Cursor::from_numbers(stop.cursor.to_numbers()), stop.cursor);
    assert_eq!(next(SAMPLE_TRAY, &index, &stop.cursor)?.record, None);
    Ok(())
}

/// The files that the examples and the documentation of the package read are the worked example.
#[test]
fn sample_files() {
    assert_eq!(include_bytes!("../../kanyorith/examples/sample.tray"), SAMPLE_TRAY);
    let index = build_vec(SAMPLE_TRAY, 4).expect("a sound tray");
    assert_eq!(include_bytes!("../../kanyorith/examples/sample.index"), &index[..]);
}

/// A vector holds exactly what was written, and the bound is room enough for every size.
#[test]
fn vectors_hold_what_is_written() {
    let mut rng = seeded(701);
    for round in 0..600 {
        let tray = tray(&mut rng, &SHAPES[round % SHAPES.len()]);
        let h = u64::from(tray[0]);
        for d in [h, h + 1, 127, 128] {
            let index = build_vec(&tray, d).expect("a sound tray");
            assert!(index.len() <= index_bound(&tray, d));
            assert_eq!(index, naive::cut_index(&tray, d as usize, || false));
        }
        let folded = fold_vec(&tray, 0, h - 1).expect("short runs");
        assert_eq!(check_tray(&folded), Ok(u64::try_from(folded.len() - 6).unwrap() / 25));
    }
    assert_eq!(index_bound(&[], 4), 0);
    assert_eq!(index_bound(SAMPLE_TRAY, u64::MAX), 0);
}

/// A page that is lost tells how many records it wrote, and leaves the cursor; `?` makes a plain refusal of it.
#[test]
fn lost_pages_keep_their_records() {
    let tray = tray_of(&["1 2 3"]);
    let index = index_of(1, 4, &[(1, &[0], &[0x00, 0x00, 0x05, 0x00])]);
    let start = seek(&tray, &index, &[0; 8]).expect("the first record is there").cursor;
    let mut cursor = start;
    let mut out = [0; 96];
    let lost = Refusal::Lost { segment: 0, selector: 2 };
    let refused = page(&tray, &index, &mut cursor, &mut out).unwrap_err();
    assert_eq!(refused, PageRefused { written: 2, refusal: lost });
    assert_eq!(refused.to_string(), "after 2 records: the walk is lost: selector 2 of segment 0 names no record");
    assert!(refused.source().is_some_and(|source| source.to_string() == lost.to_string()));
    assert_eq!(cursor, start);
    let written: Vec<[u8; 8]> = listing(&out[..48]).map(|point| point.key).collect();
    assert_eq!(written, [key(1), key(2)]);
    assert_eq!(Refusal::from(refused), lost);
}
