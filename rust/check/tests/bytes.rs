//! Any bytes in every argument, and the corpus of the fuzzer: library and twin agree, and every refusal is met.

mod common;

use std::collections::BTreeMap;
use std::fs;
use std::path::{Path, PathBuf};

use common::seeded;
use kanyorith_check::compare;
use kanyorith_check::fuzz::{OUTCOMES, step};
use kanyorith_check::samples::{Draw, Rng};

/// Bytes at random, mostly small ones, so that heads and counts are often nearly right.
fn bytes(rng: &mut Rng, most: usize) -> Vec<u8> {
    let length = rng.below(most + 1);
    let small = rng.chance(70);
    (0..length).map(|_| if small && rng.chance(80) { rng.below(3) as u8 } else { rng.byte() }).collect()
}

/// All nine calls on bytes at random.
#[test]
fn arbitrary_bytes_match_twin() {
    let mut rng = seeded(601);
    for _ in 0..150_000 {
        let (tray, index, prefix) = (bytes(&mut rng, 90), bytes(&mut rng, 60), bytes(&mut rng, 10));
        let key = rng.wide().to_be_bytes();
        let cursor = std::array::from_fn(|_| if rng.chance(90) { 0 } else { rng.wide() as u16 });
        let (room, d, a, b) = (rng.below(120), rng.wide() >> rng.below(64), rng.below(4) as u64, rng.below(4) as u64);
        compare::check_tray(&tray);
        compare::check_index(&tray, &index);
        compare::build(&tray, d, room);
        compare::get(&tray, &index, &key);
        compare::seek(&tray, &index, &key);
        compare::next(&tray, &index, &cursor);
        compare::page(&tray, &index, &cursor, room);
        compare::sheet(&tray, &index, &prefix, room);
        compare::fold(&tray, a, b, room);
    }
}

/// Fuzzing steps at random meet every number of every call, so that the fuzzer is known to reach them all.
#[test]
fn every_outcome_is_met() {
    let mut rng = seeded(602);
    let mut met: BTreeMap<(&str, u32), u32> = BTreeMap::new();
    for _ in 0..60_000 {
        let length = rng.below(700);
        let data: Vec<u8> = (0..length).map(|_| rng.byte()).collect();
        *met.entry(step(&data)).or_default() += 1;
    }
    for (call, numbers) in OUTCOMES {
        for number in numbers {
            let times = met.remove(&(call, *number)).unwrap_or(0);
            assert!(times >= 10, "{call} gave {number} {times} times");
        }
    }
    assert!(met.is_empty(), "numbers that are not in the call's order: {met:?}");
}

/// The files of the corpus. Each is named after the call and the number that it gives, or after a disagreement that it once showed.
fn corpus() -> Vec<PathBuf> {
    let folder = Path::new(env!("CARGO_MANIFEST_DIR")).join("corpus");
    fs::read_dir(folder).expect("the corpus").map(|entry| entry.expect("a file").path()).collect()
}

/// Every input of the corpus: library and twin agree, and its name tells its outcome.
#[test]
fn corpus_matches_twin() {
    let mut named = 0;
    for path in corpus() {
        let (call, number) = step(&fs::read(&path).expect("a file"));
        let name = path.file_name().expect("a name").to_string_lossy();
        if !name.starts_with("disagreement") {
            assert_eq!(name, format!("{call}-{number}"));
            named += 1;
        }
    }
    let outcomes: usize = OUTCOMES.iter().map(|(_, numbers)| numbers.len()).sum();
    assert_eq!(named, outcomes, "a file for each outcome");
}
