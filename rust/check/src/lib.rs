//! What checks Kanyorith: an independent twin of every call, and what compares the library with it.
//!
//! [`naive`] is the twin. [`compare`] runs a call on the library and on the twin and compares every byte of what they leave; [`samples`]
//! draws trays, indexes and cursors to do so on; [`fuzz`] turns any bytes into one such comparison. The tests, the program `fuzz` and
//! the benchmarks of this package stand on these.
#![warn(missing_docs)]

pub mod compare;
pub mod fuzz;
pub mod naive;
#[path = "../../kanyorith/src/raw.rs"]
pub mod raw;
pub mod samples;

pub use raw::Answer;

impl Answer {
    /// The answer of a call that refuses nothing.
    pub const fn ok(figure: u64) -> Self {
        Answer { number: 0, figure }
    }

    /// A refusal with its figure.
    pub const fn refused(number: u32, figure: u64) -> Self {
        Answer { number, figure }
    }
}

/// The program of `README.md`, compiled with the documentation's tests.
#[cfg(doctest)]
#[doc = include_str!("../../README.md")]
struct Readme;
