//! Small trays and the edges of the rules as rows: what each row asserts stands in it, and both library and twin must give it.

mod common;

use common::{Segment, index, key, tray};
use kanyorith_check::Answer;
use kanyorith_check::compare;
use kanyorith_check::samples::{Record, tray_of};

/// A name, the runs, D, and the segments that are built.
type Built<'a> = (&'a str, &'a [&'a str], u64, &'a [Segment<'a>]);

const BUILT: &[Built] = &[
    ("a: all empty", &["", ""], 2, &[]),
    (
        "b: an old version, and a key that opens a segment",
        &["5", "5 9"],
        2,
        &[(5, &[0, 0], &[0x00, 0x81]), (9, &[1, 1], &[0x01, 0x3f])],
    ),
    ("c: versions share a segment", &["1 3", "3"], 2, &[(1, &[0, 0], &[0x00, 0x3f]), (3, &[1, 0], &[0x00, 0x81])]),
    ("e: gone above live", &["5g", "5"], 2, &[(5, &[0, 0], &[0x40, 0x81])]),
    ("f: gone above gone", &["5g", "5g"], 2, &[(5, &[0, 0], &[0x40, 0xc1])]),
    ("h: room is left", &["1 2"], 4, &[(1, &[0], &[0x00, 0x00, 0x3f, 0x3f])]),
    ("live above gone", &["5", "5g"], 3, &[(5, &[0, 0], &[0x00, 0xc1, 0x3f])]),
    ("an empty run between", &["1", "", "1 2"], 3, &[(1, &[0, 0, 0], &[0x00, 0x82, 0x02])]),
    ("one selector a segment", &["1 2"], 1, &[(1, &[0], &[0x00]), (2, &[1], &[0x00])]),
];

/// Build writes just these bytes, answers their count, and check index accepts them with S.
#[test]
fn built_rows() {
    for (name, runs, d, segments) in BUILT {
        let tray = tray(runs);
        let expected = index(runs.len(), *d as usize, segments);
        let written = compare::build(&tray, *d, expected.len() + 40);
        assert_eq!(written.answer, Answer::ok(expected.len() as u64), "{name}");
        assert_eq!(written.out[..expected.len()], expected, "{name}");
        assert_eq!(compare::check_index(&tray, &expected), Answer::ok(segments.len() as u64), "{name}");
    }
}

/// A name, the runs, D, segments cut by hand, and what check index answers.
type Judged<'a> = (&'a str, &'a [&'a str], usize, &'a [Segment<'a>], Answer);

const JUDGED: &[Judged] = &[
    (
        "d: c cut within a key",
        &["1 3", "3"],
        2,
        &[(1, &[0, 0], &[0x00, 0x00]), (3, &[2, 0], &[0x81, 0x3f])],
        Answer::refused(5, 0),
    ),
    (
        "g: segments that end early",
        &["1 2"],
        4,
        &[(1, &[0], &[0, 0x3f, 0x3f, 0x3f]), (2, &[1], &[0, 0x3f, 0x3f, 0x3f])],
        Answer::ok(2),
    ),
    ("i: 7f is no placeholder", &["1 2"], 4, &[(1, &[0], &[0x00, 0x00, 0x7f, 0x3f])], Answer::refused(5, 0)),
    ("bf is no placeholder", &["1 2"], 4, &[(1, &[0], &[0x00, 0x00, 0x3f, 0xbf])], Answer::refused(5, 0)),
    ("ff is no placeholder", &["1 2"], 4, &[(1, &[0], &[0x00, 0x00, 0x3f, 0xff])], Answer::refused(5, 0)),
    ("ties oldest first", &["5", "5"], 2, &[(5, &[0, 0], &[0x01, 0x80])], Answer::refused(5, 0)),
    ("an old mark left off", &["5", "5"], 2, &[(5, &[0, 0], &[0x00, 0x01])], Answer::refused(5, 0)),
    ("an old mark left off below gone", &["5g", "5"], 2, &[(5, &[0, 0], &[0x40, 0x01])], Answer::refused(5, 0)),
    ("a gone mark left off an old record", &["5", "5g"], 2, &[(5, &[0, 0], &[0x00, 0x81])], Answer::refused(5, 0)),
    ("a record after a placeholder", &["1 2"], 4, &[(1, &[0], &[0x00, 0x3f, 0x00, 0x3f])], Answer::refused(5, 0)),
    ("a placeholder first", &["1"], 2, &[(1, &[0], &[0x3f, 0x00])], Answer::refused(5, 0)),
    ("a segment of placeholders", &["1"], 1, &[(1, &[0], &[0x00]), (1, &[1], &[0x3f])], Answer::refused(5, 1)),
    ("offsets of the last key", &["1 2"], 1, &[(1, &[1], &[0x00]), (2, &[2], &[0x00])], Answer::refused(5, 0)),
    ("an anchor of another key", &["1 2"], 1, &[(1, &[0], &[0x00]), (1, &[1], &[0x00])], Answer::refused(5, 1)),
    ("a record too many", &["1"], 2, &[(1, &[0], &[0x00, 0x00])], Answer::refused(5, 0)),
    ("left over", &["1 2"], 1, &[(1, &[0], &[0x00])], Answer::refused(5, 1)),
    ("all left over", &["1 2"], 1, &[], Answer::refused(5, 0)),
    ("none left over", &["", "", ""], 128, &[], Answer::ok(0)),
];

/// Check index answers what the row says.
#[test]
fn judged_rows() {
    for (name, runs, d, segments, expected) in JUDGED {
        let index = index(runs.len(), *d, segments);
        assert_eq!(compare::check_index(&tray(runs), &index), *expected, "{name}");
    }
}

/// A name, the runs, a and b, and the runs after the fold; the number before each run is the one it came from.
type Folded<'a> = (&'a str, &'a [&'a str], u64, u64, &'a [(usize, &'a str)]);

const FOLDED: &[Folded] = &[
    ("j: gone records stay", &["5g", "5"], 0, 1, &[(0, "5g")]),
    ("a run copied", &["5", "5 9"], 1, 1, &[(0, "5"), (1, "5 9")]),
    ("an older neighbour that is gone", &["5", "5g"], 0, 1, &[(0, "5")]),
    ("others are copied", &["1", "2", "3", "4"], 1, 2, &[(0, "1"), (1, "2 3"), (3, "4")]),
    ("empty runs", &["", "", ""], 0, 2, &[(0, "")]),
];

/// Fold writes just these bytes. A folded run here takes all its live records from its first run, or each from its own as `others` does.
#[test]
fn folded_rows() {
    for (name, runs, a, b, after) in FOLDED {
        let mut expected: Vec<Vec<Record>> = after.iter().map(|(no, text)| common::run(*no, text)).collect();
        if *name == "others are copied" {
            expected[1][1] = common::run(2, "3")[0];
        }
        assert_folds(name, &tray(runs), *a, *b, &tray_of(&expected));
    }
    // k: key 1 comes from run 0, key 2 from run 2.
    let one = vec![common::run(0, "1")[0], common::run(2, "2")[0]];
    assert_folds("k", &tray(&["1", "", "1 2"]), 0, 2, &tray_of(&[one]));
}

fn assert_folds(name: &str, tray: &[u8], a: u64, b: u64, expected: &[u8]) {
    let written = compare::fold(tray, a, b, tray.len() + 7);
    assert_eq!(written.answer, Answer::ok(expected.len() as u64), "{name}");
    assert_eq!(written.out[..expected.len()], *expected, "{name}");
    assert!(compare::untouched(&written.out, expected.len()), "{name}: past the tray");
}

/// A name, the runs, D, a key, get's figure, and the run and place that seek answers.
type Read<'a> = (&'a str, &'a [&'a str], u64, u64, u64, Option<(u8, u16)>);

const READ: &[Read] = &[
    ("a: seek ends", &["", ""], 2, 0, 0, None),
    ("e: get 5 is absent", &["5g", "5"], 2, 5, 0, None),
    ("e: seek 4 ends", &["5g", "5"], 2, 4, 0, None),
    ("the newest version", &["5", "5 9"], 2, 5, 1, Some((0, 0))),
    ("below the first key", &["5", "5 9"], 2, 1, 0, Some((0, 0))),
    ("between keys", &["5", "5 9"], 2, 6, 0, Some((1, 1))),
    ("the last key", &["5", "5 9"], 2, 9, 1, Some((1, 1))),
    ("past the last key", &["5", "5 9"], 2, 10, 0, None),
    ("the greatest key", &["1"], 1, u64::MAX, 0, None),
];

/// Get and seek through the built index answer what the row says.
#[test]
fn read_rows() {
    for (name, runs, d, sought, found, stop) in READ {
        let tray = tray(runs);
        let index = compare::build(&tray, *d, 4096);
        let index = &index.out[..index.answer.figure as usize];
        assert_eq!(compare::get(&tray, index, &key(*sought)).answer, Answer::ok(*found), "{name}");
        let seek = compare::seek(&tray, index, &key(*sought));
        assert_eq!(seek.answer, Answer::ok(u64::from(stop.is_some())), "{name}");
        if let Some((run, place)) = stop {
            assert_eq!((seek.run, seek.place), (*run, *place), "{name}");
        }
    }
}

/// A run of so many records with rising keys.
fn long(count: usize) -> Vec<Record> {
    (0..count).map(|number| common::run(0, &number.to_string())[0]).collect()
}

/// A tray in short with one byte changed.
fn changed(runs: &[&str], at: usize, byte: u8) -> Vec<u8> {
    let mut tray = tray(runs);
    tray[at] = byte;
    tray
}

/// Check tray answers what the row says: header, counts and length to their edges, and records in tray order, 3 before 2 at one record.
#[test]
fn tray_rows() {
    let empty = |h: usize| tray_of(&vec![Vec::new(); h]);
    let mut longer = tray(&["1"]);
    longer.push(0);
    let mut both = changed(&["1 2", "3 4"], 8 + 25 * 3 + 8, 2);
    both[8 + 25 * 3 + 7] = 3;
    let mut earlier = changed(&["1 2 3"], 6 + 25 + 7, 1);
    earlier[6 + 50 + 8] = 2;
    let rows: &[(&str, Vec<u8>, Answer)] = &[
        ("no byte", vec![], Answer::refused(1, 0)),
        ("three bytes", vec![1, 0, 0], Answer::refused(1, 0)),
        ("a header alone", vec![1, 0, 0, 0], Answer::refused(1, 0)),
        ("half a count", vec![1, 0, 0, 0, 0], Answer::refused(1, 0)),
        ("H 0", vec![0, 0, 0, 0], Answer::refused(1, 0)),
        ("H 1", empty(1), Answer::ok(0)),
        ("H 63", empty(63), Answer::ok(0)),
        ("H 64", empty(64), Answer::refused(1, 0)),
        ("H 255", empty(255), Answer::refused(1, 0)),
        ("byte 1", changed(&["1"], 1, 1), Answer::refused(1, 0)),
        ("byte 2", changed(&["1"], 2, 1), Answer::refused(1, 0)),
        ("byte 3", changed(&["1"], 3, 1), Answer::refused(1, 0)),
        ("count 4,096", tray_of(&[long(4096)]), Answer::ok(4096)),
        ("count 4,097", tray_of(&[long(4097)]), Answer::refused(1, 0)),
        ("a byte short", tray(&["1"])[..30].to_vec(), Answer::refused(1, 0)),
        ("exact", tray(&["1"])[..31].to_vec(), Answer::ok(1)),
        ("a byte over", longer, Answer::refused(1, 0)),
        ("an equal key", tray(&["1", "2 2"]), Answer::refused(2, 2)),
        ("a lower key", tray(&["1 2", "2 1"]), Answer::refused(2, 3)),
        ("a run's first key is above nothing", tray(&["9", "1"]), Answer::ok(2)),
        ("kind 2", changed(&["1", "2"], 8 + 25 + 8, 2), Answer::refused(3, 1)),
        ("kind 255", changed(&["1"], 6 + 8, 255), Answer::refused(3, 0)),
        ("gone with a value's first byte", changed(&["1g"], 6 + 9, 1), Answer::refused(3, 0)),
        ("gone with a value's last byte", changed(&["1g"], 6 + 24, 1), Answer::refused(3, 0)),
        ("3 before 2 at one record", both, Answer::refused(3, 3)),
        ("an earlier 2 before a later 3", earlier, Answer::refused(2, 1)),
    ];
    for (name, tray, expected) in rows {
        assert_eq!(compare::check_tray(tray), *expected, "{name}");
    }
}

/// Build refuses a D outside of H to 128 with D as figure, whatever its width, and before it looks at records.
#[test]
fn size_rows() {
    let unsound = tray(&["2 1"]);
    let rows: &[(&str, Vec<u8>, u64, Answer)] = &[
        ("l: D 1 for two runs", tray(&["1", "2"]), 1, Answer::refused(6, 1)),
        ("D 0", tray(&["1"]), 0, Answer::refused(6, 0)),
        ("D of H", tray(&["1", "2"]), 2, Answer::ok(8 + 12 + 2)),
        ("D 128", tray(&["1"]), 128, Answer::ok(8 + 10 + 128)),
        ("D 129", tray(&["1"]), 129, Answer::refused(6, 129)),
        ("D 256 + 2", tray(&["1"]), 258, Answer::refused(6, 258)),
        ("D 2^32 + 2", tray(&["1"]), (1 << 32) + 2, Answer::refused(6, (1 << 32) + 2)),
        ("D of 64 bits", tray(&["1"]), u64::MAX, Answer::refused(6, u64::MAX)),
        ("6 before 2", unsound.clone(), 129, Answer::refused(6, 129)),
        ("1 before 6", vec![0], 129, Answer::refused(1, 0)),
        ("2", unsound, 128, Answer::refused(2, 1)),
    ];
    for (name, tray, d, expected) in rows {
        assert_eq!(compare::build(tray, *d, 1000).answer, *expected, "{name}");
    }
}

/// Fold refuses bounds with b as figure, whatever their width, before it looks at records.
#[test]
fn bound_rows() {
    let (two, unsound) = (tray(&["1", "2"]), tray(&["2 1", "1"]));
    let rows: &[(&str, &[u8], u64, u64, Answer)] = &[
        ("b of H", &two, 0, 2, Answer::refused(8, 2)),
        ("a above b", &two, 1, 0, Answer::refused(8, 0)),
        ("both past", &two, 9, 8, Answer::refused(8, 8)),
        ("b 2^8", &two, 0, 256, Answer::refused(8, 256)),
        ("b 2^32 + 1", &two, 0, (1 << 32) + 1, Answer::refused(8, (1 << 32) + 1)),
        ("b of 64 bits", &two, 0, u64::MAX, Answer::refused(8, u64::MAX)),
        ("a 2^8", &two, 256, 1, Answer::refused(8, 1)),
        ("a 2^32", &two, 1 << 32, 1, Answer::refused(8, 1)),
        ("a of 64 bits", &two, u64::MAX, 0, Answer::refused(8, 0)),
        ("8 before 2", &unsound, 1, 0, Answer::refused(8, 0)),
        ("2 of a run that is copied", &unsound, 1, 1, Answer::refused(2, 1)),
        ("1 before 8", &two[..7], 1, 0, Answer::refused(1, 0)),
    ];
    for (name, tray, a, b, expected) in rows {
        assert_eq!(compare::fold(tray, *a, *b, 1000).answer, *expected, "{name}");
    }
}

/// Sheet refuses a prefix by its length, then by its last byte; 00fe is the last of two bytes with a bound.
#[test]
fn prefix_rows() {
    let keys: Vec<u64> =
        [0x00fd_ffff, 0x00fe_0000, 0x00fe_ffff, 0x00ff_0000].iter().map(|key: &u64| key << 32).collect();
    let words: Vec<String> = keys.iter().map(u64::to_string).collect();
    let tray = tray(&[&words.join(" ")]);
    let index = compare::build(&tray, 3, 1000);
    let index = &index.out[..index.answer.figure as usize];
    let rows: &[(&str, &[u8], Answer)] = &[
        ("empty", &[], Answer::refused(8, 0)),
        ("00fe", &[0x00, 0xfe], Answer::ok(2)),
        ("00ff", &[0x00, 0xff], Answer::refused(9, 2)),
        ("00fd", &[0x00, 0xfd], Answer::ok(1)),
        ("00", &[0x00], Answer::ok(4)),
        ("fe", &[0xfe], Answer::ok(0)),
        ("ff", &[0xff], Answer::refused(9, 1)),
        ("ff00", &[0xff, 0x00], Answer::ok(0)),
        ("a whole key", &[0x00, 0xfe, 0xff, 0xff, 0, 0, 0, 0], Answer::ok(1)),
        ("a whole key that ends in 255", &[0, 0, 0, 0, 0, 0, 0, 255], Answer::refused(9, 8)),
        ("nine bytes", &[0; 9], Answer::refused(8, 9)),
        ("nine bytes that end in 255", &[0, 0, 0, 0, 0, 0, 0, 0, 255], Answer::refused(8, 9)),
    ];
    for (name, prefix, expected) in rows {
        assert_eq!(compare::sheet(&tray, index, prefix, 1000).answer, *expected, "{name}");
    }
    assert_eq!(compare::sheet(&tray, &[1, 3], &[], 1000).answer, Answer::refused(4, 0), "4 before 8");
    assert_eq!(compare::sheet(&[], &[1, 3], &[], 1000).answer, Answer::refused(1, 0), "1 before 4");
}

/// With the exact room each call writes; with one byte less, and with none, it refuses with the need and leaves the output alone.
#[test]
fn room_rows() {
    let tray = tray(&["1 2 3", "2 3g 4", "4 5"]);
    let index = compare::build(&tray, 3, 1000);
    let index = &index.out[..index.answer.figure as usize];
    type Call<'a> = &'a dyn Fn(usize) -> compare::Written;
    let rows: &[(&str, usize, u64, Call)] = &[
        ("build", 8 + 3 * (8 + 6 + 3), 8 + 3 * (8 + 6 + 3), &|room| compare::build(&tray, 3, room)),
        ("sheet", 5 * 24, 5, &|room| compare::sheet(&tray, index, &[0], room)),
        ("fold to one", 4 + 2 + 5 * 25, 4 + 2 + 5 * 25, &|room| compare::fold(&tray, 0, 2, room)),
        ("fold two", 4 + 4 + 6 * 25, 4 + 4 + 6 * 25, &|room| compare::fold(&tray, 0, 1, room)),
        ("fold none", tray.len(), tray.len() as u64, &|room| compare::fold(&tray, 1, 1, room)),
    ];
    for (name, need, answer, call) in rows {
        assert_eq!(call(*need).answer, Answer::ok(*answer), "{name}: exact");
        for room in [need - 1, 0] {
            let short = call(room);
            assert_eq!(short.answer, Answer::refused(7, *need as u64), "{name}: {room} bytes");
            assert!(compare::untouched(&short.out, 0), "{name}: {room} bytes");
        }
    }
}

/// Each byte of an index's head to its edges, and its length.
#[test]
fn index_frame_rows() {
    let tray = tray(&["1", "2"]);
    let sound = index(2, 2, &[(1, &[0, 0], &[0, 1])]);
    let with = |at: usize, byte: u8| {
        let mut index = sound.clone();
        index[at] = byte;
        index
    };
    let mut over = sound.clone();
    over.push(0x3f);
    let mut all_segments = sound.clone();
    all_segments[4..8].fill(255);
    let rows: &[(&str, Vec<u8>, Answer)] = &[
        ("sound", sound.clone(), Answer::ok(1)),
        ("no byte", vec![], Answer::refused(4, 0)),
        ("seven bytes", sound[..7].to_vec(), Answer::refused(4, 0)),
        ("another H", with(0, 1), Answer::refused(4, 0)),
        ("D below H", with(1, 1), Answer::refused(4, 0)),
        ("D 0", with(1, 0), Answer::refused(4, 0)),
        ("byte 2", with(2, 1), Answer::refused(4, 0)),
        ("byte 3", with(3, 1), Answer::refused(4, 0)),
        ("S 0 with a segment", with(7, 0), Answer::refused(4, 0)),
        ("S 2 with one segment", with(7, 2), Answer::refused(4, 0)),
        ("S of 32 bits", all_segments, Answer::refused(4, 0)),
        ("a byte short", sound[..sound.len() - 1].to_vec(), Answer::refused(4, 0)),
        ("a byte over", over, Answer::refused(4, 0)),
        ("D 128 alone", vec![2, 128, 0, 0, 0, 0, 0, 0], Answer::refused(5, 0)),
        ("D 129 alone", vec![2, 129, 0, 0, 0, 0, 0, 0], Answer::refused(4, 0)),
    ];
    for (name, index, expected) in rows {
        assert_eq!(compare::check_index(&tray, index), *expected, "{name}");
        let quick =
            if expected.number == 5 { Answer::ok(0) } else { Answer { figure: expected.figure.min(1), ..*expected } };
        assert_eq!(compare::get(&tray, index, &key(1)).answer, quick, "{name}: get");
    }
}
