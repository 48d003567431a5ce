//! Every call on the library and on the twin at once: the same answer, the same outputs, and every other byte as it was.
//!
//! Outputs start from bytes of a fixed pattern, and lie between two guards of the same pattern; whole buffers are compared, guards
//! included. So a byte that a call should have left alone, inside of the output or around it, shows as a difference. A disagreement
//! panics with the call, its input and both outcomes.

use std::fmt::{Debug, Write};

use kanyorith::{Key, Value};

use crate::naive;
use crate::raw::{self, Answer, Numbers};

/// An odd number of bytes before and after each output, so that outputs stand at odd addresses too.
const GUARD: usize = 61;

/// What a build, a sheet or a fold leaves.
#[derive(Clone, Debug, PartialEq, Eq)]
pub struct Written {
    /// Number and figure.
    pub answer: Answer,
    /// The whole output.
    pub out: Vec<u8>,
}

/// What a get leaves.
#[derive(Clone, Debug, PartialEq, Eq)]
pub struct Got {
    /// Number and figure.
    pub answer: Answer,
    /// The value, or the pattern where none was written.
    pub value: Value,
}

/// What a seek or a next leaves.
#[derive(Clone, Debug, PartialEq, Eq)]
pub struct Sought {
    /// Number and figure.
    pub answer: Answer,
    /// The run, or the pattern where none was written.
    pub run: u8,
    /// The place, or the pattern where none was written.
    pub place: u16,
    /// The cursor: for a refused seek the pattern, for a refused next the one that was given.
    pub cursor: Numbers,
}

/// What a page leaves.
#[derive(Clone, Debug, PartialEq, Eq)]
pub struct Paged {
    /// Number and figure.
    pub answer: Answer,
    /// How many records it says that it wrote.
    pub count: u64,
    /// The moved cursor, or the one that was given where the page was refused.
    pub cursor: Numbers,
    /// The whole output.
    pub out: Vec<u8>,
}

/// Whether an output still has its pattern from a place on.
pub fn untouched(out: &[u8], from: usize) -> bool {
    out.iter().enumerate().skip(from).all(|(at, &byte)| byte == pattern(GUARD + at))
}

/// The byte of the pattern at a place.
fn pattern(at: usize) -> u8 {
    (at as u8).wrapping_mul(151) ^ 0x5a
}

fn pattern_bytes<const N: usize>() -> [u8; N] {
    std::array::from_fn(pattern)
}

fn pattern_numbers() -> Numbers {
    std::array::from_fn(|at| u16::from_be_bytes([pattern(2 * at), pattern(2 * at + 1)]))
}

/// Runs a call on an output of `room` bytes between guards; gives what the call answers and the buffer with its guards.
fn lend<T>(room: usize, call: impl FnOnce(&mut [u8]) -> T) -> (T, Vec<u8>) {
    let mut buffer: Vec<u8> = (0..room + 2 * GUARD).map(pattern).collect();
    let answer = call(&mut buffer[GUARD..GUARD + room]);
    (answer, buffer)
}

/// The output without its guards.
fn unguarded(mut buffer: Vec<u8>) -> Vec<u8> {
    buffer.truncate(buffer.len() - GUARD);
    buffer.drain(..GUARD);
    buffer
}

fn hex(bytes: &[u8]) -> String {
    let shown = &bytes[..bytes.len().min(2048)];
    let mut text = format!("{} bytes: ", bytes.len());
    for byte in shown {
        write!(text, "{byte:02x}").expect("a string takes all that is written");
    }
    text
}

/// The outcome of both, or a panic that tells the input.
fn agreed<T: PartialEq + Debug>(call: &str, input: &[(&str, &[u8])], library: T, twin: T) -> T {
    if library != twin {
        let told: Vec<String> = input.iter().map(|(name, bytes)| format!("  {name}: {}", hex(bytes))).collect();
        let told = told.join("\n");
        panic!("{call}: library and twin disagree\n{told}\n  library: {library:?}\n  twin:    {twin:?}");
    }
    library
}

fn numbers(cursor: &Numbers) -> Vec<u8> {
    cursor.iter().flat_map(|number| number.to_be_bytes()).collect()
}

/// Check tray on both.
pub fn check_tray(tray: &[u8]) -> Answer {
    agreed("check tray", &[("tray", tray)], raw::check_tray(tray), naive::check_tray(tray))
}

/// Check index on both.
pub fn check_index(tray: &[u8], index: &[u8]) -> Answer {
    let input = [("tray", tray), ("index", index)];
    agreed("check index", &input, raw::check_index(tray, index), naive::check_index(tray, index))
}

/// Build on both, with an output of `room` bytes.
pub fn build(tray: &[u8], d: u64, room: usize) -> Written {
    let input = [("tray", tray), ("d", &d.to_be_bytes()), ("room", &room.to_be_bytes())];
    let library = lend(room, |out| raw::build(tray, d, out));
    let twin = lend(room, |out| naive::build(tray, d, out));
    let (answer, buffer) = agreed("build", &input, library, twin);
    Written { answer, out: unguarded(buffer) }
}

/// Get on both.
pub fn get(tray: &[u8], index: &[u8], key: &Key) -> Got {
    let outcome = |call: fn(&[u8], &[u8], &Key, &mut Value) -> Answer| {
        let mut value = pattern_bytes();
        let answer = call(tray, index, key, &mut value);
        Got { answer, value }
    };
    let input = [("tray", tray), ("index", index), ("key", key)];
    agreed("get", &input, outcome(raw::get), outcome(naive::get))
}

/// Seek on both.
pub fn seek(tray: &[u8], index: &[u8], key: &Key) -> Sought {
    type Call = fn(&[u8], &[u8], &Key, &mut u8, &mut u16, &mut Numbers) -> Answer;
    let outcome = |call: Call| {
        let (mut run, mut place, mut cursor) = (0xe7, 0xdada, pattern_numbers());
        let answer = call(tray, index, key, &mut run, &mut place, &mut cursor);
        Sought { answer, run, place, cursor }
    };
    let input = [("tray", tray), ("index", index), ("key", key)];
    agreed("seek", &input, outcome(raw::seek), outcome(naive::seek))
}

/// Next on both.
pub fn next(tray: &[u8], index: &[u8], from: &Numbers) -> Sought {
    let outcome = |call: fn(&[u8], &[u8], &mut u8, &mut u16, &mut Numbers) -> Answer| {
        let (mut run, mut place, mut cursor) = (0xe7, 0xdada, *from);
        let answer = call(tray, index, &mut run, &mut place, &mut cursor);
        Sought { answer, run, place, cursor }
    };
    let input = [("tray", tray), ("index", index), ("cursor", &numbers(from))];
    agreed("next", &input, outcome(raw::next), outcome(naive::next))
}

/// Page on both, with an output of `room` bytes.
pub fn page(tray: &[u8], index: &[u8], from: &Numbers, room: usize) -> Paged {
    type Call = fn(&[u8], &[u8], &mut Numbers, &mut [u8], &mut u64) -> Answer;
    let outcome = |call: Call| {
        let (mut cursor, mut count) = (*from, u64::MAX);
        let (answer, out) = lend(room, |out| call(tray, index, &mut cursor, out, &mut count));
        Paged { answer, count, cursor, out }
    };
    let input = [("tray", tray), ("index", index), ("cursor", &numbers(from)), ("room", &room.to_be_bytes())];
    let paged = agreed("page", &input, outcome(raw::page), outcome(naive::page));
    Paged { out: unguarded(paged.out), ..paged }
}

/// Sheet on both, with an output of `room` bytes.
pub fn sheet(tray: &[u8], index: &[u8], prefix: &[u8], room: usize) -> Written {
    let input = [("tray", tray), ("index", index), ("prefix", prefix), ("room", &room.to_be_bytes())];
    let library = lend(room, |out| raw::sheet(tray, index, prefix, out));
    let twin = lend(room, |out| naive::sheet(tray, index, prefix, out));
    let (answer, buffer) = agreed("sheet", &input, library, twin);
    Written { answer, out: unguarded(buffer) }
}

/// Fold on both, with an output of `room` bytes.
pub fn fold(tray: &[u8], a: u64, b: u64, room: usize) -> Written {
    let (first, last) = (a.to_be_bytes(), b.to_be_bytes());
    let input = [("tray", tray), ("a", &first[..]), ("b", &last), ("room", &room.to_be_bytes())];
    let library = lend(room, |out| raw::fold(tray, a, b, out));
    let twin = lend(room, |out| naive::fold(tray, a, b, out));
    let (answer, buffer) = agreed("fold", &input, library, twin);
    Written { answer, out: unguarded(buffer) }
}
