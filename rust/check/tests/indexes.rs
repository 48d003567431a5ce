//! Check index on built, re-cut and damaged indexes: the same answer as the twin, and no change of a byte goes unseen.

mod common;

use common::{SHAPES, TINY, seeded, segments_of, selectors_at};
use kanyorith_check::Answer;
use kanyorith_check::samples::{Draw, damage, index, tray};
use kanyorith_check::{compare, naive};

/// However the segments end, an index of whole keys in the order of the view is accepted with S.
#[test]
fn every_cut_is_accepted() {
    let mut rng = seeded(201);
    for round in 0..3000 {
        let tray = tray(&mut rng, &SHAPES[round % SHAPES.len()]);
        let index = index(&mut rng, &tray);
        assert_eq!(compare::check_index(&tray, &index), Answer::ok(segments_of(&index) as u64));
    }
}

/// All cuts of a tiny tray, as the bits of a number say after which keys a segment ends.
#[test]
fn all_cuts_of_a_tray_are_accepted() {
    let mut rng = seeded(202);
    for _ in 0..20 {
        let tray = tray(&mut rng, &TINY);
        for d in [3, 4, 7] {
            for cuts in 0..32u32 {
                let mut key = 0;
                let index = naive::cut_index(&tray, d, || {
                    key += 1;
                    cuts >> (key - 1) & 1 == 1
                });
                assert_eq!(compare::check_index(&tray, &index), Answer::ok(segments_of(&index) as u64));
            }
        }
    }
}

/// Every byte of an accepted index with every other value is refused: by 4 in the head, by 5 after it. Without a segment any D will do.
#[test]
fn every_byte_of_an_index_is_seen() {
    let mut rng = seeded(203);
    for _ in 0..12 {
        let tray = tray(&mut rng, &TINY);
        let mut index = index(&mut rng, &tray);
        if segments_of(&index) == 0 {
            continue;
        }
        for at in 0..index.len().min(400) {
            let kept = index[at];
            for value in (0..=255).filter(|&value| value != kept) {
                index[at] = value;
                let answer = compare::check_index(&tray, &index);
                assert_eq!(answer.number, if at < 8 { 4 } else { 5 }, "byte {at} as {value}");
            }
            index[at] = kept;
        }
    }
}

/// A changed selector is refused at its own segment, by every value of it: a missing mark, a mark too many, another run, a placeholder.
#[test]
fn every_selector_value_is_refused_at_its_segment() {
    let mut rng = seeded(204);
    for _ in 0..40 {
        let tray = tray(&mut rng, &SHAPES[0]);
        let mut index = index(&mut rng, &tray);
        let segments = segments_of(&index);
        if segments == 0 {
            continue;
        }
        let g = rng.below(segments);
        let from = selectors_at(&index, g);
        let at = from + rng.below(usize::from(index[1]));
        let kept = index[at];
        for value in (0..=255).filter(|&value| value != kept) {
            index[at] = value;
            let answer = compare::check_index(&tray, &index);
            // A segment that ends a key earlier or later is right; then its neighbour is wrong.
            let ends_elsewhere = value == 0x3f || kept == 0x3f;
            let figures = g as u64..=g as u64 + u64::from(ends_elsewhere);
            assert!(answer.number == 5 && figures.contains(&answer.figure), "{answer:?} for segment {g}");
        }
        index[at] = kept;
    }
}

/// Two neighbouring selectors that differ, in one segment, exchanged: ties oldest first, or keys in wrong order. Refused at that segment.
#[test]
fn swapped_selectors_are_refused() {
    let mut rng = seeded(205);
    let mut swapped = 0;
    for round in 0..400 {
        let tray = tray(&mut rng, &SHAPES[round % SHAPES.len()]);
        let mut index = index(&mut rng, &tray);
        for g in 0..segments_of(&index).min(4) {
            let from = selectors_at(&index, g);
            for at in from..from + usize::from(index[1]) - 1 {
                if index[at] != index[at + 1] {
                    index.swap(at, at + 1);
                    assert_eq!(compare::check_index(&tray, &index), Answer::refused(5, g as u64));
                    index.swap(at, at + 1);
                    swapped += 1;
                }
            }
        }
    }
    assert!(swapped > 2000, "{swapped} swaps");
}

/// An index of another tray with as many runs, and a tray whose record was taken away: as the twin has it.
#[test]
fn strange_indexes_match_twin() {
    let mut rng = seeded(206);
    for round in 0..1500 {
        let shape = &SHAPES[round % SHAPES.len()];
        let (one, mut other) = (tray(&mut rng, shape), tray(&mut rng, shape));
        let index = index(&mut rng, &one);
        compare::check_index(&other, &index);
        other.truncate(other.len().saturating_sub(25));
        compare::check_index(&other, &index);
    }
}

/// Damage in tray, index or both, one to four times: as the twin has it, in the order 1, 3/2, 4, 5.
#[test]
fn damaged_indexes_match_twin() {
    let mut rng = seeded(207);
    for round in 0..8000 {
        let mut tray = tray(&mut rng, &SHAPES[round % SHAPES.len()]);
        let mut index = index(&mut rng, &tray);
        for _ in 0..1 + rng.below(4) {
            damage(&mut rng, &mut index);
        }
        if rng.chance(20) {
            damage(&mut rng, &mut tray);
        }
        compare::check_index(&tray, &index);
    }
}

/// Segments exchanged, doubled and dropped: refused, at the first segment that is not in its place.
#[test]
fn moved_segments_are_refused() {
    let mut rng = seeded(208);
    let mut moved = 0;
    for round in 0..600 {
        let tray = tray(&mut rng, &SHAPES[round % SHAPES.len()]);
        let index = index(&mut rng, &tray);
        let segments = segments_of(&index);
        if segments < 2 {
            continue;
        }
        let size = (index.len() - 8) / segments;
        let g = rng.below(segments - 1);
        let at = 8 + g * size;
        let mut swapped = index.clone();
        swapped[at..at + 2 * size].rotate_left(size);
        assert_eq!(compare::check_index(&tray, &swapped), Answer::refused(5, g as u64));
        let mut dropped = index.clone();
        dropped.drain(at..at + size);
        dropped[4..8].copy_from_slice(&(segments as u32 - 1).to_be_bytes());
        assert_eq!(compare::check_index(&tray, &dropped), Answer::refused(5, g as u64));
        let mut doubled = index.clone();
        doubled.splice(at..at, index[at..at + size].iter().copied());
        doubled[4..8].copy_from_slice(&(segments as u32 + 1).to_be_bytes());
        assert_eq!(compare::check_index(&tray, &doubled), Answer::refused(5, g as u64 + 1));
        moved += 1;
    }
    assert!(moved > 200, "{moved} indexes");
}
