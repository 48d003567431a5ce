//! A point, and the points of a listing.

use crate::{KEY_SIZE, Key, LISTED_SIZE, Value};

/// A point: its key and its value.
///
/// ```
/// use kanyorith::Point;
///
/// let point = Point { key: [0, 0, 0, 0, 0, 7, 0, 2], value: [0, 0, 0, 101, 0, 0, 0, 50, 0, 0, 0, 0, 255, 255, 255, 255] };
/// assert_eq!((point.sheet(), point.number()), ([0, 0, 0, 0, 0, 7], 2));
/// assert_eq!((point.column(), point.row()), (101, 50));
/// assert_eq!((point.longitude(), point.latitude()), (0, -1));
/// ```
#[derive(Clone, Copy, Debug, PartialEq, Eq, Hash)]
pub struct Point {
    /// 6 bytes of sheet, 2 of point.
    pub key: Key,
    /// Pixel column, pixel row, longitude, latitude.
    pub value: Value,
}

impl Point {
    /// The sheet of the key.
    pub fn sheet(&self) -> [u8; 6] {
        self.key.first_chunk().copied().expect("a key has 8 bytes")
    }

    /// The point's number on its sheet.
    pub fn number(&self) -> u16 {
        u16::from_be_bytes([self.key[6], self.key[7]])
    }

    /// The pixel column.
    pub fn column(&self) -> u32 {
        u32::from_be_bytes(self.quarter(0))
    }

    /// The pixel row.
    pub fn row(&self) -> u32 {
        u32::from_be_bytes(self.quarter(1))
    }

    /// The longitude in millionths of a degree.
    pub fn longitude(&self) -> i32 {
        i32::from_be_bytes(self.quarter(2))
    }

    /// The latitude in millionths of a degree.
    pub fn latitude(&self) -> i32 {
        i32::from_be_bytes(self.quarter(3))
    }

    fn quarter(&self, at: usize) -> [u8; 4] {
        self.value.as_chunks().0[at]
    }
}

/// The points of a listing, as [`page`](crate::page) and [`sheet`](crate::sheet) write it. Bytes after the last whole record are not
/// looked at.
///
/// ```
/// let written = [[7; 24], [8; 24]].concat();
/// let numbers: Vec<u16> = kanyorith::listing(&written).map(|point| point.number()).collect();
/// assert_eq!(numbers, [0x0707, 0x0808]);
/// ```
pub fn listing(bytes: &[u8]) -> impl Iterator<Item = Point> + '_ {
    bytes.as_chunks().0.iter().map(listed)
}

/// The point of a record in a listing.
pub(crate) fn listed(record: &[u8; LISTED_SIZE]) -> Point {
    let (key, value) = record.split_at(KEY_SIZE);
    Point { key: key.try_into().expect("8 bytes"), value: value.try_into().expect("16 bytes") }
}
