//! One fuzzing step: bytes pick a call and its arguments, and the library is compared with the twin.
//!
//! Any fuzzer can drive [`run_one`]; the program `fuzz` does, and with the feature `fuzzer` the crate exports the symbol that LLVM's
//! drivers look for.

use kanyorith::{LISTED_SIZE, MOST_RUNS, MOST_SELECTORS};

use crate::compare;
use crate::raw::Answer;
use crate::samples::{self, Draw, Script, Shape};

/// Trays small enough that a step takes microseconds, and dense enough that keys meet.
const SHAPES: [Shape; 4] = [
    Shape { runs: 3, records: 6, keys: 8, gone: 25, empty: 10 },
    Shape { runs: 8, records: 12, keys: 24, gone: 10, empty: 20 },
    Shape { runs: MOST_RUNS, records: 4, keys: 6, gone: 20, empty: 30 },
    Shape { runs: 2, records: 40, keys: 600, gone: 5, empty: 0 },
];

/// The calls and the numbers that each can give to inputs of this size: 12 takes runs of more than 2,048 records.
pub const OUTCOMES: [(&str, &[u32]); 9] = [
    ("check_tray", &[0, 1, 2, 3]),
    ("build", &[0, 1, 2, 3, 6, 7]),
    ("fold", &[0, 1, 2, 3, 7, 8]),
    ("check_index", &[0, 1, 2, 3, 4, 5]),
    ("get", &[0, 1, 4, 10]),
    ("seek", &[0, 1, 4, 10]),
    ("next", &[0, 1, 4, 10, 11]),
    ("page", &[0, 1, 4, 10, 11]),
    ("sheet", &[0, 1, 4, 7, 8, 9, 10]),
];

/// Runs the call that the bytes pick on library and twin.
///
/// # Panics
/// Where library and twin disagree, with the input of the call.
pub fn run_one(data: &[u8]) {
    step(data);
}

/// As [`run_one`]; gives the call's name and the number of its first answer.
///
/// # Panics
/// Where library and twin disagree, with the input of the call.
pub fn step(data: &[u8]) -> (&'static str, u32) {
    let mut script = Script(data);
    let call = OUTCOMES[script.below(OUTCOMES.len())].0;
    let (tray, index) = draw_pair(&mut script);
    let answer = match call {
        "check_tray" => compare::check_tray(&tray),
        "build" => build(&mut script, &tray),
        "fold" => fold(&mut script, &tray),
        "check_index" => compare::check_index(&tray, &index),
        "get" => compare::get(&tray, &index, &samples::key_near(&mut script, &tray)).answer,
        "seek" => compare::seek(&tray, &index, &samples::key_near(&mut script, &tray)).answer,
        "next" => next(&mut script, &tray, &index),
        "page" => page(&mut script, &tray, &index),
        _ => sheet(&mut script, &tray, &index),
    };
    (call, answer.number)
}

/// A sound tray and an accepted index of it, each of them damaged or not, or any bytes. Both are blocks of exactly their length,
/// so that a memory checker sees every byte read past them.
fn draw_pair(script: &mut Script) -> (Box<[u8]>, Box<[u8]>) {
    let choice = script.below(16);
    if choice == 15 {
        return (draw_bytes(script).into(), draw_bytes(script).into());
    }
    let mut tray = samples::tray(script, &SHAPES[choice % 4]);
    let index_choice = script.below(8);
    let mut index = if index_choice == 7 { draw_bytes(script) } else { samples::index(script, &tray) };
    for _ in 0..[0, 0, 1, 1, 2, 4, 8, 0][index_choice] {
        samples::damage(script, &mut index);
    }
    if choice >= 12 {
        samples::damage(script, &mut tray);
    }
    (tray.into(), index.into())
}

/// Up to 255 bytes, any at all.
fn draw_bytes(script: &mut Script) -> Vec<u8> {
    let length = script.below(256);
    (0..length).map(|_| script.byte()).collect()
}

/// A number up to a bound in most cases; else one just past it, one just past a byte, or one of 64 bits.
fn draw_number(script: &mut Script, bound: usize) -> u64 {
    match script.below(8) {
        0 => script.wide(),
        1 => (bound + script.below(4)) as u64,
        2 => 256 + script.below(256) as u64,
        _ => script.below(bound + 1) as u64,
    }
}

/// A build in any room; where it is short, in the exact room and in one byte less.
fn build(script: &mut Script, tray: &[u8]) -> Answer {
    let d = draw_number(script, MOST_SELECTORS);
    let room = script.below(4096);
    let first = compare::build(tray, d, room);
    if first.answer.number == 7 {
        compare::build(tray, d, first.answer.figure as usize);
        compare::build(tray, d, first.answer.figure as usize - 1);
    }
    first.answer
}

/// A fold in any room; where it is short, in the exact room and in one byte less.
fn fold(script: &mut Script, tray: &[u8]) -> Answer {
    let h = usize::from(tray.first().copied().unwrap_or(0));
    let (a, b) = (draw_number(script, h / 2), draw_number(script, h));
    let room = script.below(4096);
    let first = compare::fold(tray, a, b, room);
    if first.answer.number == 7 {
        compare::fold(tray, a, b, first.answer.figure as usize);
        compare::fold(tray, a, b, first.answer.figure as usize - 1);
    }
    first.answer
}

/// A few moves from a drawn cursor.
fn next(script: &mut Script, tray: &[u8], index: &[u8]) -> Answer {
    let from = samples::cursor(script, tray, index);
    let first = compare::next(tray, index, &from);
    let mut cursor = first.cursor;
    for _ in 0..script.below(4) {
        cursor = compare::next(tray, index, &cursor).cursor;
    }
    first.answer
}

/// A few pages from a drawn cursor.
fn page(script: &mut Script, tray: &[u8], index: &[u8]) -> Answer {
    let from = samples::cursor(script, tray, index);
    let first = compare::page(tray, index, &from, script.below(8 * LISTED_SIZE));
    let mut cursor = first.cursor;
    for _ in 0..script.below(4) {
        let room = script.below(8 * LISTED_SIZE);
        cursor = compare::page(tray, index, &cursor, room).cursor;
    }
    first.answer
}

/// A sheet in any room; where it is short, in the exact room and in one byte less.
fn sheet(script: &mut Script, tray: &[u8], index: &[u8]) -> Answer {
    let mut prefix = samples::key_near(script, tray).to_vec();
    prefix.push(script.byte());
    prefix.truncate([6, 1, 2, 3, 4, 5, 7, 8, 9, 0][script.below(10)]);
    if script.below(8) == 0 {
        let last = prefix.len().saturating_sub(1);
        prefix[last..].fill(255);
    }
    let room = script.below(16 * LISTED_SIZE);
    let first = compare::sheet(tray, index, &prefix, room);
    if first.answer.number == 7 {
        compare::sheet(tray, index, &prefix, first.answer.figure as usize);
        compare::sheet(tray, index, &prefix, first.answer.figure as usize - 1);
    }
    first.answer
}

/// The entry point that LLVM's fuzzing drivers call.
///
/// # Safety
/// `data` must point to `length` bytes, or `length` must be 0.
#[cfg(feature = "fuzzer")]
#[unsafe(no_mangle)]
pub unsafe extern "C" fn LLVMFuzzerTestOneInput(data: *const u8, length: usize) -> i32 {
    if length == 0 {
        run_one(&[]);
    } else {
        // SAFETY: the caller lends `length` bytes at `data`, and keeps them while this runs.
        run_one(unsafe { std::slice::from_raw_parts(data, length) });
    }
    0
}
