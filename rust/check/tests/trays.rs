//! Check tray and build on trays of every shape, sound and damaged: the same answer and output as the twin, and what is
//! promised of a built index.

mod common;

use common::{SHAPES, TINY, seeded, segments_of};
use kanyorith::index_bound;
use kanyorith_check::compare;
use kanyorith_check::samples::{Draw, damage, size, tray};

/// A drawn tray is sound; with a few bytes damaged, library and twin give the same refusal.
#[test]
fn check_tray_matches_twin() {
    let mut rng = seeded(101);
    for round in 0..6000 {
        let mut tray = tray(&mut rng, &SHAPES[round % SHAPES.len()]);
        assert_eq!(compare::check_tray(&tray).number, 0);
        for _ in 0..1 + rng.below(4) {
            damage(&mut rng, &mut tray);
        }
        compare::check_tray(&tray);
    }
}

/// Every byte of a tiny tray with every value: check tray, build and fold agree with the twin.
#[test]
fn every_byte_of_a_tray_matches_twin() {
    let mut rng = seeded(102);
    for _ in 0..3 {
        let mut tray = tray(&mut rng, &TINY);
        let d = size(&mut rng, &tray) as u64;
        for at in 0..tray.len() {
            let kept = tray[at];
            for value in 0..=255 {
                tray[at] = value;
                compare::check_tray(&tray);
                if value % 7 == 0 {
                    compare::build(&tray, d, 600);
                    compare::fold(&tray, 0, 1, 600);
                }
            }
            tray[at] = kept;
        }
    }
}

/// What is built is accepted, fits into the bound, has (S/2)·(D+1) ≤ N, and is the twin's to the byte.
#[test]
fn built_is_accepted() {
    let mut rng = seeded(103);
    for round in 0..1500 {
        let tray = tray(&mut rng, &SHAPES[round % SHAPES.len()]);
        let d = size(&mut rng, &tray) as u64;
        let room = index_bound(&tray, d);
        let built = compare::build(&tray, d, room);
        assert_eq!(built.answer.number, 0, "the bound is room enough");
        let index = &built.out[..built.answer.figure as usize];
        let checked = compare::check_index(&tray, index);
        assert_eq!((checked.number, checked.figure), (0, segments_of(index) as u64));
        let records = compare::check_tray(&tray).figure;
        assert!(checked.figure / 2 * (d + 1) <= records, "S {} and D {d} for {records} records", checked.figure);
    }
}

/// Every room from 0 to a few bytes past the need: refused with the need below it, written from it on, the rest of the room untouched.
#[test]
fn build_in_every_room() {
    let mut rng = seeded(104);
    for _ in 0..12 {
        let tray = tray(&mut rng, &TINY);
        let d = size(&mut rng, &tray) as u64;
        let need = compare::build(&tray, d, 20_000).answer.figure as usize;
        for room in 0..need.min(900) + 5 {
            let built = compare::build(&tray, d, room);
            let expected = if room < need { (7, need as u64) } else { (0, need as u64) };
            assert_eq!((built.answer.number, built.answer.figure), expected);
            assert!(compare::untouched(&built.out, if room < need { 0 } else { need }));
        }
    }
}

/// Every D from 0 to 140 for trays of 1, 2, 8 and 63 runs.
#[test]
fn build_with_every_size() {
    let mut rng = seeded(105);
    for shape in SHAPES {
        let tray = tray(&mut rng, &shape);
        let h = u64::from(tray[0]);
        for d in 0..=140 {
            let built = compare::build(&tray, d, 60_000);
            assert_eq!(built.answer.number == 6, d < h || d > 128);
        }
    }
}

/// Damaged trays: the order 1, 6, 3/2, 7 as the twin has it.
#[test]
fn build_of_damaged_trays_matches_twin() {
    let mut rng = seeded(106);
    for round in 0..4000 {
        let mut tray = tray(&mut rng, &SHAPES[round % SHAPES.len()]);
        damage(&mut rng, &mut tray);
        let d = if rng.chance(20) { rng.wide() } else { rng.below(132) as u64 };
        let room = rng.below(3000);
        compare::build(&tray, d, room);
    }
}
