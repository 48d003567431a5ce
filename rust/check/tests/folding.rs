//! Fold: the twin's answer and bytes on every input, and what is promised of chains of folds.

mod common;

use common::{SHAPES, TINY, seeded};
use kanyorith_check::Answer;
use kanyorith_check::samples::{Draw, Record, Rng, Shape, damage, index, live, runs, tray, tray_of};
use kanyorith_check::{compare, naive};

/// The tray after a fold that is not refused.
fn folded(tray: &[u8], a: u64, b: u64) -> Vec<u8> {
    let mut written = compare::fold(tray, a, b, tray.len());
    assert_eq!(written.answer.number, 0, "fold {a} to {b}");
    written.out.truncate(written.answer.figure as usize);
    written.out
}

/// Everything that is read through an accepted index, drawn for the tray.
fn read(rng: &mut Rng, tray: &[u8]) -> Vec<u8> {
    let index = index(rng, tray);
    let from = compare::seek(tray, &index, &[0; 8]).cursor;
    let page = compare::page(tray, &index, &from, tray.len());
    assert_eq!(page.answer, Answer::ok(0), "one page has room for all");
    page.out[..page.count as usize * 24].to_vec()
}

/// Every a and b, from 0 to past the last run: refused by 8 with figure b, or the twin's bytes.
#[test]
fn every_fold_matches_twin() {
    let mut rng = seeded(401);
    for shape in SHAPES {
        let tray = tray(&mut rng, &shape);
        let h = u64::from(tray[0]);
        for a in 0..h + 2 {
            for b in 0..h + 2 {
                let answer = compare::fold(&tray, a, b, tray.len()).answer;
                let expected = if a > b || b >= h { Answer::refused(8, b) } else { Answer::ok(answer.figure) };
                assert_eq!(answer, expected);
            }
        }
    }
}

/// Every room from 0 to past the need: refused with the need below it, written from it on, the rest untouched.
#[test]
fn fold_in_every_room() {
    let mut rng = seeded(402);
    for _ in 0..12 {
        let tray = tray(&mut rng, &TINY);
        let b = u64::from(tray[0]) - 1;
        let need = compare::fold(&tray, 0, b, tray.len()).answer.figure as usize;
        for room in 0..tray.len() + 3 {
            let written = compare::fold(&tray, 0, b, room);
            let expected = if room < need { (7, need as u64) } else { (0, need as u64) };
            assert_eq!((written.answer.number, written.answer.figure), expected);
            assert!(compare::untouched(&written.out, if room < need { 0 } else { need }));
        }
    }
}

/// Damaged trays: the order 1, 8, 3/2, 12, 7 as the twin has it.
#[test]
fn fold_of_damaged_trays_matches_twin() {
    let mut rng = seeded(403);
    for round in 0..6000 {
        let mut tray = tray(&mut rng, &SHAPES[round % SHAPES.len()]);
        damage(&mut rng, &mut tray);
        let (a, b) = if rng.chance(10) { (rng.wide(), rng.wide()) } else { (rng.below(6) as u64, rng.below(9) as u64) };
        let room = rng.below(4000);
        compare::fold(&tray, a, b, room);
    }
}

/// A fold never changes what is read.
#[test]
fn reads_stay_the_same() {
    let mut rng = seeded(404);
    for round in 0..1000 {
        let tray = tray(&mut rng, &SHAPES[round % SHAPES.len()]);
        let b = rng.below(usize::from(tray[0]));
        let a = rng.below(b + 1);
        let after = folded(&tray, a as u64, b as u64);
        assert_eq!(compare::check_tray(&after).number, 0, "a folded tray is sound");
        let before = read(&mut rng, &tray);
        assert_eq!(before, naive::visible(&tray).as_flattened());
        assert_eq!(read(&mut rng, &after), before);
    }
}

/// Follows every chain of folds to one run, and hands each end on.
fn every_chain(tray: &[u8], at_end: &mut impl FnMut(&[u8])) {
    let h = u64::from(tray[0]);
    if h == 1 {
        at_end(tray);
    }
    for a in 0..h {
        for b in a + 1..h {
            every_chain(&folded(tray, a, b), at_end);
        }
    }
}

/// All chains that fold a tray to one run end in the same bytes, and these are those of folding everything at once.
#[test]
fn all_chains_end_in_the_same_bytes() {
    let mut rng = seeded(405);
    let mut chains = 0;
    for _ in 0..60 {
        let tray = tray(&mut rng, &Shape { runs: 5, ..TINY });
        let at_once = folded(&tray, 0, u64::from(tray[0]) - 1);
        every_chain(&tray, &mut |end| {
            assert_eq!(end, at_once);
            chains += 1;
        });
    }
    assert!(chains > 500, "{chains} chains");
}

/// So many records with keys from a number on.
fn keys(rng: &mut Rng, from: u64, count: u64) -> Vec<Record> {
    (from..from + count).map(|number| live(number.to_be_bytes(), rng)).collect()
}

/// A row: the keys of three runs, as first and count, and how many keys they have in all.
const LENGTHS: &[([(u64, u64); 3], u64)] = &[
    ([(0, 2000), (2000, 2000), (4000, 96)], 4096),
    ([(0, 2000), (2000, 2000), (4000, 97)], 4097),
    ([(0, 3000), (1000, 3000), (96, 4000)], 4096),
    ([(0, 3000), (1000, 3000), (97, 4000)], 4097),
    ([(0, 4096), (0, 4096), (0, 4096)], 4096),
    ([(0, 4096), (1, 4096), (0, 4096)], 4097),
    ([(0, 4096), (4096, 4096), (8192, 4096)], 12_288),
];

/// Run length stops a chain of folds exactly when it stops folding everything at once, and its figure there is the count of all keys.
#[test]
fn run_length_stops_chains_as_it_stops_all_at_once() {
    let mut rng = seeded(406);
    for (row, all) in LENGTHS {
        let runs: Vec<Vec<Record>> = row.iter().map(|&(from, count)| keys(&mut rng, from, count)).collect();
        let tray = tray_of(&runs);
        let expected = if *all > 4096 { (12, *all) } else { (0, 6 + 25 * all) };
        let at_once = compare::fold(&tray, 0, 2, tray.len()).answer;
        assert_eq!((at_once.number, at_once.figure), expected);
        for first in [0, 1] {
            let step = compare::fold(&tray, first, first + 1, tray.len());
            if step.answer.number == 12 {
                assert!(*all > 4096);
                continue;
            }
            let step = &step.out[..step.answer.figure as usize];
            let last = compare::fold(step, 0, 1, tray.len()).answer;
            assert_eq!((last.number, last.figure), expected);
        }
    }
}

/// 12 comes before 7: a run that would be too long has no need of room.
#[test]
fn run_length_before_room() {
    let mut rng = seeded(407);
    let tray = tray_of(&[keys(&mut rng, 0, 4096), keys(&mut rng, 4096, 1)]);
    let refused = compare::fold(&tray, 0, 1, 10);
    assert_eq!(refused.answer, Answer::refused(12, 4097));
    assert!(compare::untouched(&refused.out, 0));
}

/// An empty run adds nothing, nor does an older neighbour that is a copy.
#[test]
fn empty_runs_and_copies_add_nothing() {
    let mut rng = seeded(408);
    for round in 0..400 {
        let runs = runs(&mut rng, &SHAPES[round % 3]);
        let expected = folded(&tray_of(&runs), 0, runs.len() as u64 - 1);
        let at = rng.below(runs.len());
        for added in [Vec::new(), runs[at].clone()] {
            let mut more = runs.clone();
            more.insert(at + 1, added);
            assert_eq!(folded(&tray_of(&more), 0, runs.len() as u64), expected);
        }
    }
}

/// Folding a run with itself copies the tray.
#[test]
fn one_run_folded_is_a_copy() {
    let mut rng = seeded(409);
    for round in 0..200 {
        let tray = tray(&mut rng, &SHAPES[round % SHAPES.len()]);
        let at = rng.below(usize::from(tray[0])) as u64;
        assert_eq!(folded(&tray, at, at), tray);
    }
}
