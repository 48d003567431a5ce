//! Other ways to list points: a merging iterator over a binary heap, which needs no index, and a map of the visible points, which needs
//! all of them in memory a second time.

use std::cmp::Reverse;
use std::collections::{BTreeMap, BinaryHeap};

use kanyorith::{Key, Value};
use kanyorith_check::naive;
use kanyorith_check::samples::Record;

/// The runs of a sound tray.
pub fn runs(tray: &[u8]) -> Vec<&[Record]> {
    let h = usize::from(tray[0]);
    let (head, mut rest) = tray.split_at(4 + 2 * h);
    let mut runs = Vec::with_capacity(h);
    for count in head[4..].as_chunks().0 {
        let (run, after) = rest.split_at(usize::from(u16::from_be_bytes(*count)) * 25);
        runs.push(run.as_chunks().0);
        rest = after;
    }
    runs
}

fn number(record: &Record) -> u64 {
    u64::from_be_bytes(*record.first_chunk().expect("a key"))
}

/// The visible records from a key on, by a heap of the runs' next records.
pub struct HeapMerge<'a> {
    heap: BinaryHeap<Reverse<(u64, usize)>>,
    rest: Vec<&'a [Record]>,
    last: Option<u64>,
}

impl<'a> HeapMerge<'a> {
    pub fn new(runs: &[&'a [Record]], from: u64) -> Self {
        let rest: Vec<&[Record]> =
            runs.iter().map(|run| &run[run.partition_point(|record| number(record) < from)..]).collect();
        let heads =
            rest.iter().enumerate().filter_map(|(run, rest)| rest.first().map(|head| Reverse((number(head), run))));
        HeapMerge { heap: heads.collect(), rest, last: None }
    }
}

impl<'a> Iterator for HeapMerge<'a> {
    type Item = &'a Record;

    fn next(&mut self) -> Option<&'a Record> {
        loop {
            let mut top = self.heap.peek_mut()?;
            let Reverse((key, run)) = *top;
            let (record, after) = self.rest[run].split_first().expect("a run in the heap has a record");
            self.rest[run] = after;
            match after.first() {
                Some(head) => *top = Reverse((number(head), run)),
                None => {
                    std::collections::binary_heap::PeekMut::pop(top);
                }
            }
            let old = self.last == Some(key);
            self.last = Some(key);
            if !old && record[8] == 0 {
                return Some(record);
            }
        }
    }
}

/// Writes the visible records from one key to another; gives how many.
pub fn heap_list(runs: &[&[Record]], from: u64, to: Option<u64>, out: &mut [u8]) -> usize {
    let mut count = 0;
    for (record, room) in HeapMerge::new(runs, from).zip(out.as_chunks_mut::<24>().0) {
        if to.is_some_and(|to| number(record) >= to) {
            break;
        }
        room[..8].copy_from_slice(&record[..8]);
        room[8..].copy_from_slice(&record[9..]);
        count += 1;
    }
    count
}

pub type Map = BTreeMap<Key, Value>;

/// The visible points of a tray.
pub fn map_of(tray: &[u8]) -> Map {
    let split = |record: &[u8; 24]| {
        let (key, value) = record.split_at(8);
        (key.try_into().expect("8 bytes"), value.try_into().expect("16 bytes"))
    };
    naive::visible(tray).iter().map(split).collect()
}

/// Writes the points of a map from one key to another; gives how many.
pub fn map_list(map: &Map, from: Key, to: Option<Key>, out: &mut [u8]) -> usize {
    let range = match to {
        Some(to) => map.range(from..to),
        None => map.range(from..),
    };
    let mut count = 0;
    for ((key, value), room) in range.zip(out.as_chunks_mut::<24>().0) {
        room[..8].copy_from_slice(key);
        room[8..].copy_from_slice(value);
        count += 1;
    }
    count
}
