//! Control points of scanned maps, read through REMIX indexes.
//!
//! A *tray* is up to 63 sorted runs of points, newest first; an *index* belongs to it and says, key by key, which run the next point comes
//! from. This crate reads points through an index, checks trays and indexes, builds indexes, and folds neighbouring runs into one. The
//! work is done by a static library whose every function is proved to meet its contract; this crate lends it slices and gives its
//! refusals types. In the repository, `docs/FORMAT.md` describes the bytes, and `docs/PROMISES.md` what is proved of each call.
//!
//! # Reading
//!
//! A [`Reader`] holds a tray and its index, and has everything that reads them:
//!
//! ```
//! use kanyorith::Reader;
//!
//! let tray = std::fs::read("examples/sample.tray")?;
//! let index = std::fs::read("examples/sample.index")?;
//! let reader = Reader::open(&tray, &index)?;
//!
//! // One point, by its key: 6 bytes of sheet, 2 of point.
//! let value = reader.get(&[0, 0, 0, 0, 0, 7, 0, 1])?.expect("the point is there");
//! assert_eq!(value[..8], [0, 0, 3, 32, 0, 0, 1, 144]);
//!
//! // All points of a sheet, in key order.
//! for point in reader.prefix(&[0, 0, 0, 0, 0, 7])? {
//!     let point = point?;
//!     println!("{}: column {}, row {}", point.number(), point.column(), point.row());
//! }
//! # Ok::<(), Box<dyn std::error::Error>>(())
//! ```
//!
//! # Any bytes will do
//!
//! Every call accepts any bytes, and returns. A tray, an index, a key, a prefix or a cursor need not be valid: what is wrong with it is a
//! [`Refusal`]. The reading calls test what they follow, and not the whole index. Where [`Reader::check`] accepts it, they give exactly
//! the points whose newest version is live, in that version and in key order, and no walk is ever lost; an index that is not accepted
//! may hide points or show old ones.
//!
//! # Writing
//!
//! [`build_vec`] makes the index of a tray, and [`fold_vec`] a tray in which neighbouring runs are one. Both have a form that writes to
//! memory of the caller: [`build`] and [`fold`].
//!
//! # The calls of the C interface
//!
//! Each call of `include/kanyorith.h` is a function here too, under the same name: [`check_tray`], [`check_index`], [`build`], [`get`],
//! [`seek`], [`next`], [`page`], [`sheet`] and [`fold`]. Those that read take tray and index as two slices. An index in the place of the
//! tray is always refused by [`Refusal::TrayFrame`], since byte 1 of a tray is 0 and byte 1 of an index is not; a [`Reader`] is told so
//! once, when it is opened.
#![warn(missing_docs)]

mod calls;
mod cursor;
mod point;
mod points;
mod raw;
mod reader;
mod refusal;

pub use calls::{build, build_vec, check_index, check_tray, fold, fold_vec, get, index_bound, next, page, seek, sheet};
pub use cursor::{Cursor, Page, Place, RunNo, Stop};
pub use point::{Point, listing};
pub use points::Points;
pub use reader::Reader;
pub use refusal::{PageRefused, Refusal};

/// Bytes of a key: 6 of sheet, 2 of point.
pub const KEY_SIZE: usize = 8;
/// Bytes of a value: pixel column, pixel row, longitude, latitude, 4 each.
pub const VALUE_SIZE: usize = 16;
/// Bytes of a record in a listing: key, then value.
pub const LISTED_SIZE: usize = 24;
/// Bytes of a record in a tray: key, kind, value.
pub const RECORD_SIZE: usize = 25;
/// Numbers of a cursor.
pub const CURSOR_SIZE: usize = 66;
/// The most runs that a tray can have.
pub const MOST_RUNS: usize = 63;
/// The largest segment size, and the most selectors in a segment.
pub const MOST_SELECTORS: usize = 128;

/// A key. Keys are ordered as unsigned bytes.
pub type Key = [u8; KEY_SIZE];
/// A value, as it stands in the tray.
pub type Value = [u8; VALUE_SIZE];
