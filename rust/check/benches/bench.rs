//! What each call takes, beside the same rules written by hand, and beside other ways to list points.
//!
//! `cargo bench` measures, prints a table and writes `docs/BENCHMARKS.md` and `docs/benchmarks.svg`. `cargo bench -- --quick` checks
//! every answer, measures a little, and writes nothing. Every answer is compared with the twin before it is timed; the variants of a
//! call run in turn, round after round, and each time is the median of its rounds.

mod hand;
mod listings;
mod report;
mod workload;

use std::hint::black_box;
use std::process::ExitCode;
use std::time::Duration;

use kanyorith::index_bound;
use kanyorith_check::Answer;
use kanyorith_check::raw::Numbers;
use kanyorith_check::samples::{self, Draw, Rng, Shape};
use kanyorith_check::{naive, raw};

use report::Row;
use workload::Workload;

/// The calls of one implementation.
#[allow(clippy::type_complexity, reason = "these are the shapes of the calls")]
#[derive(Clone, Copy)]
struct Calls {
    check_tray: fn(&[u8]) -> Answer,
    check_index: fn(&[u8], &[u8]) -> Answer,
    build: fn(&[u8], u64, &mut [u8]) -> Answer,
    get: fn(&[u8], &[u8], &[u8; 8], &mut [u8; 16]) -> Answer,
    seek: fn(&[u8], &[u8], &[u8; 8], &mut u8, &mut u16, &mut Numbers) -> Answer,
    next: fn(&[u8], &[u8], &mut u8, &mut u16, &mut Numbers) -> Answer,
    page: fn(&[u8], &[u8], &mut Numbers, &mut [u8], &mut u64) -> Answer,
    sheet: fn(&[u8], &[u8], &[u8], &mut [u8]) -> Answer,
    fold: fn(&[u8], u64, u64, &mut [u8]) -> Answer,
}

macro_rules! calls {
    ($module:ident) => {
        Calls {
            check_tray: $module::check_tray,
            check_index: $module::check_index,
            build: $module::build,
            get: $module::get,
            seek: $module::seek,
            next: $module::next,
            page: $module::page,
            sheet: $module::sheet,
            fold: $module::fold,
        }
    };
}

const LIBRARY: Calls = calls!(raw);
const HAND: Calls = calls!(hand);
const TWIN: Calls = calls!(naive);

/// Room of a page that is one of many: 256 records.
const PAGE: usize = 256 * 24;

/// How much to measure.
#[derive(Clone, Copy)]
struct Effort {
    rounds: usize,
    /// Records or calls that a timed stretch has at least.
    units: usize,
}

const FULL: Effort = Effort { rounds: 15, units: 60_000 };
const QUICK: Effort = Effort { rounds: 3, units: 1 };

/// How often the whole table is measured: a machine that shares its processors may be half as fast from one minute to the next.
const PASSES: usize = 5;

/// One way to do a task: a name, and the task done once.
type Variant<'a> = (&'static str, Box<dyn FnMut() + 'a>);

/// The processor time of this thread: what else runs on the machine is not counted.
fn processor_time() -> Duration {
    #[repr(C)]
    struct Timespec {
        seconds: i64,
        nanoseconds: i64,
    }
    const THREAD: i32 = 3;
    unsafe extern "C" {
        fn clock_gettime(clock: i32, time: *mut Timespec) -> i32;
    }
    let mut time = Timespec { seconds: 0, nanoseconds: 0 };
    // SAFETY: `time` is ours, and laid out as a timespec of 64-bit Linux, where the library runs.
    let status = unsafe { clock_gettime(THREAD, &mut time) };
    assert_eq!(status, 0, "the system tells a thread's processor time");
    Duration::new(time.seconds as u64, time.nanoseconds as u32)
}

/// The median times of a task of so many units, a unit, by variant.
fn measure(effort: Effort, units: usize, variants: &mut [Variant]) -> Vec<(&'static str, f64)> {
    let repeats = effort.units.div_ceil(units.max(1));
    let mut times = vec![Vec::with_capacity(effort.rounds); variants.len()];
    for _ in 0..effort.rounds {
        for ((_, task), times) in variants.iter_mut().zip(&mut times) {
            // Once untimed: so each finds the caches as it left them itself, and not as the variant before it did.
            task();
            let from = processor_time();
            for _ in 0..repeats {
                task();
            }
            times.push((processor_time() - from).as_nanos() as f64 / (repeats * units) as f64);
        }
    }
    let median = |times: &mut Vec<f64>| {
        times.sort_by(f64::total_cmp);
        times[times.len() / 2]
    };
    variants.iter().zip(&mut times).map(|((name, _), times)| (*name, median(times))).collect()
}

/// Uses a value, so that no compiler leaves out what made it.
fn sink<T>(value: T) {
    black_box(value);
}

/// What a call leaves that tells one answer from another: numbers, figures and output bytes.
type Outcome = (Vec<Answer>, Vec<u8>);

/// Checks library and hand against the twin, then times both.
fn both<'a>(
    effort: Effort,
    units: usize,
    outcome: impl Fn(Calls) -> Outcome,
    task: impl Fn(Calls) -> Box<dyn FnMut() + 'a>,
    others: Vec<Variant<'a>>,
) -> Vec<(&'static str, f64)> {
    let expected = outcome(TWIN);
    assert!(outcome(LIBRARY) == expected, "the library differs from the twin");
    assert!(outcome(HAND) == expected, "the hand-written rules differ from the twin");
    let mut variants: Vec<Variant> = vec![("library", task(LIBRARY)), ("hand", task(HAND))];
    variants.extend(others);
    measure(effort, units, &mut variants)
}

/// Check tray, and folds of this tray: the copy, and the merge of all its runs up to where it is refused or written.
fn tray_rows(effort: Effort, work: &Workload, short: &Workload) -> Vec<Row> {
    let tray = &work.tray;
    let check = both(
        effort,
        work.records,
        |calls| (vec![(calls.check_tray)(tray)], vec![]),
        |calls| Box::new(move || sink((calls.check_tray)(black_box(tray)))),
        vec![],
    );
    let fold_row = |name, work: &Workload, a, b| {
        let tray = &work.tray;
        let times = both(
            effort,
            work.records,
            |calls| {
                let mut out = vec![0; tray.len()];
                (vec![(calls.fold)(tray, a, b, &mut out)], out)
            },
            |calls| {
                let (tray, mut out) = (tray.clone(), vec![0; tray.len()]);
                Box::new(move || sink((calls.fold)(black_box(&tray), a, b, &mut out)))
            },
            vec![],
        );
        Row::new(work, None, name, "record", times)
    };
    let last = work.h as u64 - 1;
    vec![
        Row::new(work, None, "check tray", "record", check),
        fold_row("fold, a copy", work, 0, 0),
        fold_row("fold, all runs into one", short, 0, last),
    ]
}

/// Check index and build.
fn index_rows(effort: Effort, work: &Workload) -> Vec<Row> {
    let (tray, index, d) = (&work.tray, &work.index, work.d as u64);
    let check = both(
        effort,
        work.records,
        |calls| (vec![(calls.check_index)(tray, index)], vec![]),
        |calls| Box::new(move || sink((calls.check_index)(black_box(tray), index))),
        vec![],
    );
    let room = index_bound(tray, d);
    let build = both(
        effort,
        work.records,
        |calls| {
            let mut out = vec![0; room];
            (vec![(calls.build)(tray, d, &mut out)], out)
        },
        |calls| {
            let mut out = vec![0; room];
            Box::new(move || sink((calls.build)(black_box(tray), d, &mut out)))
        },
        vec![],
    );
    vec![
        Row::new(work, Some(work.d), "check index", "record", check),
        Row::new(work, Some(work.d), "build", "record", build),
    ]
}

/// Seeks the key; gives the answer and the cursor.
fn seek(calls: Calls, work: &Workload, key: &[u8; 8]) -> (Answer, Numbers) {
    let (mut run, mut place, mut cursor) = (0, 0, [0; 66]);
    let answer = (calls.seek)(&work.tray, &work.index, key, &mut run, &mut place, &mut cursor);
    (answer, cursor)
}

fn bytes(cursor: &Numbers) -> impl Iterator<Item = u8> + '_ {
    cursor.iter().flat_map(|number| number.to_be_bytes())
}

/// Get, seek and next, one after another for keys in no order.
fn point_rows<'a>(effort: Effort, work: &'a Workload, map: &'a listings::Map) -> Vec<Row> {
    let (tray, index, keys) = (&work.tray, &work.index, &work.keys);
    let get = both(
        effort,
        keys.len(),
        |calls| {
            let mut values = vec![[0; 16]; keys.len()];
            let answers = keys.iter().zip(&mut values).map(|(key, value)| (calls.get)(tray, index, key, value));
            (answers.collect(), values.as_flattened().to_vec())
        },
        |calls| {
            let mut value = [0; 16];
            Box::new(move || keys.iter().for_each(|key| sink((calls.get)(tray, index, black_box(key), &mut value))))
        },
        vec![("map", Box::new(move || keys.iter().for_each(|key| sink(map.get(black_box(key)).copied()))))],
    );
    let sought = both(
        effort,
        keys.len(),
        |calls| {
            let stops: Vec<_> = keys.iter().map(|key| seek(calls, work, key)).collect();
            (stops.iter().map(|stop| stop.0).collect(), stops.iter().flat_map(|stop| bytes(&stop.1)).collect())
        },
        |calls| Box::new(move || keys.iter().for_each(|key| sink(seek(calls, work, black_box(key))))),
        vec![],
    );
    let cursors: Vec<Numbers> = keys.iter().map(|key| seek(TWIN, work, key).1).collect();
    let moved = |calls: Calls, cursor: &Numbers| {
        let (mut run, mut place, mut cursor) = (0, 0, *cursor);
        ((calls.next)(tray, index, &mut run, &mut place, &mut cursor), cursor)
    };
    let next = both(
        effort,
        cursors.len(),
        |calls| {
            let stops: Vec<_> = cursors.iter().map(|cursor| moved(calls, cursor)).collect();
            (stops.iter().map(|stop| stop.0).collect(), stops.iter().flat_map(|stop| bytes(&stop.1)).collect())
        },
        |calls| {
            let cursors = cursors.clone();
            Box::new(move || cursors.iter().for_each(|cursor| sink(moved(calls, black_box(cursor)))))
        },
        vec![],
    );
    vec![
        Row::new(work, Some(work.d), "get", "call", get),
        Row::new(work, Some(work.d), "seek", "call", sought),
        Row::new(work, Some(work.d), "next", "call", next),
    ]
}

/// The whole listing by pages of a room; gives the answers, and calls `page` with each page.
fn paged(calls: Calls, work: &Workload, out: &mut [u8], mut page: impl FnMut(&[u8])) -> Vec<Answer> {
    let mut cursor = seek(calls, work, &[0; 8]).1;
    let mut answers = Vec::new();
    loop {
        let mut count = 0;
        let answer = (calls.page)(&work.tray, &work.index, &mut cursor, out, &mut count);
        page(&out[..count as usize * 24]);
        answers.push(answer);
        if answer != Answer::ok(1) {
            return answers;
        }
    }
}

/// Everything that is visible, in one page and in many.
fn page_rows<'a>(effort: Effort, work: &'a Workload, map: &'a listings::Map) -> Vec<Row> {
    let length = work.listing.len();
    let row = |name, room: usize, others: Vec<Variant<'a>>| {
        let times = both(
            effort,
            length / 24,
            |calls| {
                let mut listing = Vec::new();
                let answers = paged(calls, work, &mut vec![0; room], |page| listing.extend(page));
                assert!(listing == work.listing, "pages give the merge");
                (answers, listing)
            },
            |calls| {
                let mut out = vec![0; room];
                Box::new(move || sink(paged(calls, work, &mut out, |page| sink(page))))
            },
            others,
        );
        Row::new(work, Some(work.d), name, "record", times)
    };
    let runs = listings::runs(&work.tray);
    let (mut heap_out, mut map_out, mut copy_out) = (vec![0; length], vec![0; length], vec![0; length]);
    assert_eq!(listings::heap_list(&runs, 0, None, &mut heap_out), length / 24);
    assert_eq!(listings::map_list(map, [0; 8], None, &mut map_out), length / 24);
    assert!(heap_out == work.listing && map_out == work.listing, "heap and map give the merge");
    let others: Vec<Variant> = vec![
        ("heap", Box::new(move || sink(listings::heap_list(black_box(&runs), 0, None, &mut heap_out)))),
        ("map", Box::new(move || sink(listings::map_list(black_box(map), [0; 8], None, &mut map_out)))),
        ("memcpy", Box::new(move || black_box(&mut copy_out[..]).copy_from_slice(black_box(&work.listing)))),
    ];
    vec![row("page, all in one", length, others), row("page, 256 records each", PAGE, vec![])]
}

/// Sheets in no order.
fn sheet_row<'a>(effort: Effort, work: &'a Workload, map: &'a listings::Map) -> Row {
    let (tray, index, sheets) = (&work.tray, &work.index, &work.sheets);
    let room = 256 * 24;
    let outcome = |calls: Calls| {
        let mut outs = vec![0; room * sheets.len()];
        let answers =
            sheets.iter().zip(outs.chunks_mut(room)).map(|(sheet, out)| (calls.sheet)(tray, index, sheet, out));
        (answers.collect::<Vec<_>>(), outs)
    };
    let (answers, expected) = outcome(TWIN);
    let listed: u64 = answers.iter().map(|answer| answer.figure).sum();
    let runs = listings::runs(tray);
    let from =
        |sheet: &[u8; 6]| u64::from_be_bytes([0, 0, sheet[0], sheet[1], sheet[2], sheet[3], sheet[4], sheet[5]]) << 16;
    let heap =
        move |sheet: &[u8; 6], out: &mut [u8]| listings::heap_list(&runs, from(sheet), Some(from(sheet) + 65_536), out);
    let tree = move |sheet: &[u8; 6], out: &mut [u8]| {
        let from = from(sheet);
        listings::map_list(map, from.to_be_bytes(), Some((from + 65_536).to_be_bytes()), out)
    };
    for ((sheet, answer), expected) in sheets.iter().zip(&answers).zip(expected.chunks(room)) {
        let (mut by_heap, mut by_tree) = (vec![0; room], vec![0; room]);
        assert_eq!(heap(sheet, &mut by_heap) as u64, answer.figure);
        assert_eq!(tree(sheet, &mut by_tree) as u64, answer.figure);
        assert!(by_heap == expected && by_tree == expected, "heap and map give the sheet");
    }
    let (mut heap_out, mut tree_out) = (vec![0; room], vec![0; room]);
    let times = both(
        effort,
        listed as usize,
        outcome,
        |calls| {
            let mut out = vec![0; room];
            Box::new(move || {
                sheets.iter().for_each(|sheet| sink((calls.sheet)(tray, index, black_box(sheet), &mut out)))
            })
        },
        vec![
            ("heap", Box::new(move || sheets.iter().for_each(|sheet| sink(heap(black_box(sheet), &mut heap_out))))),
            ("map", Box::new(move || sheets.iter().for_each(|sheet| sink(tree(black_box(sheet), &mut tree_out))))),
        ],
    );
    Row::new(work, Some(work.d), "sheet", "record", times)
}

/// The hand-written rules on small trays and damaged indexes: they must be the same rules, or the comparison means little.
fn hand_follows_the_rules() {
    let mut rng = Rng::new(1);
    let shape = Shape { runs: 9, records: 12, keys: 20, gone: 20, empty: 20 };
    for _ in 0..20_000 {
        let mut tray = samples::tray(&mut rng, &shape);
        let mut index = samples::index(&mut rng, &tray);
        for _ in 0..rng.below(5) {
            samples::damage(&mut rng, &mut index);
        }
        let cursor = samples::cursor(&mut rng, &tray, &index);
        if rng.chance(10) {
            samples::damage(&mut rng, &mut tray);
        }
        let key = samples::key_near(&mut rng, &tray);
        let (d, a, b, room) = (rng.below(140) as u64, rng.below(3) as u64, rng.below(10) as u64, rng.below(900));
        let outcome = |calls: Calls| {
            let (mut value, mut run, mut place, mut out) = ([7; 16], 7, 7, vec![7; 5 * room]);
            let (mut sought, mut moved, mut paged, mut count) = ([7; 66], cursor, cursor, 7);
            let mut rooms = out.chunks_mut(room.max(1));
            let mut room = || rooms.next().unwrap_or_default();
            let answers = [
                (calls.check_tray)(&tray),
                (calls.check_index)(&tray, &index),
                (calls.build)(&tray, d, room()),
                (calls.get)(&tray, &index, &key, &mut value),
                (calls.seek)(&tray, &index, &key, &mut run, &mut place, &mut sought),
                (calls.next)(&tray, &index, &mut run, &mut place, &mut moved),
                (calls.page)(&tray, &index, &mut paged, room(), &mut count),
                (calls.sheet)(&tray, &index, &key[..6], room()),
                (calls.fold)(&tray, a, b, room()),
            ];
            (answers, value, run, place, sought, moved, paged, count, out)
        };
        assert!(outcome(HAND) == outcome(TWIN), "the hand-written rules differ from the twin");
    }
}

fn rows(effort: Effort) -> Vec<Row> {
    let mut rows = Vec::new();
    for h in [1, 8, 63] {
        let sizes = [32, 64, 128].into_iter().filter(|&d| d >= h);
        let short = Workload::new(h, 4096 / h, 128, 900 + h as u64);
        for (nth, d) in sizes.enumerate() {
            let work = Workload::new(h, 4096, d, 800 + h as u64);
            let map = listings::map_of(&work.tray);
            if nth == 0 {
                rows.extend(tray_rows(effort, &work, &short));
            }
            rows.extend(index_rows(effort, &work));
            rows.extend(point_rows(effort, &work, &map));
            rows.extend(page_rows(effort, &work, &map));
            rows.push(sheet_row(effort, &work, &map));
        }
    }
    // As many runs, but so few records that the caches hold the tray.
    let cached = Workload::new(63, 512, 64, 863);
    let map = listings::map_of(&cached.tray);
    rows.extend(index_rows(effort, &cached));
    rows.extend(page_rows(effort, &cached, &map));
    rows.push(sheet_row(effort, &cached, &map));
    rows
}

fn main() -> ExitCode {
    let quick = std::env::args().any(|word| word == "--quick");
    hand_follows_the_rules();
    let before = report::Load::now(processor_time());
    let passes = if quick { vec![rows(QUICK)] } else { (0..PASSES).map(|_| rows(FULL)).collect() };
    let rows = report::calmest(passes);
    let others = before.others_until(&report::Load::now(processor_time()));
    print!("{}", report::table(&rows));
    if quick {
        println!("bench: every answer is the twin's; times of a quick run mean little, and nothing is written");
        return ExitCode::SUCCESS;
    }
    match report::write(&rows, others) {
        Ok(()) => ExitCode::SUCCESS,
        Err(error) => {
            println!("bench: {error}");
            ExitCode::FAILURE
        }
    }
}
