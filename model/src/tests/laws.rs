//! Facts that hold of every cell, and the model held against itself by other ways.

use crate::cells::{cells_of, exists, number_of, place_of};
use crate::fills::fill;
use crate::masks::{count, grow, join, marks, mask_bytes, shrink, within, WITHIN};
use crate::positions::{cell_at, centre};
use crate::random::Random;
use crate::steps::{code, direct, step, CODES};
use crate::touching::{touching_by_points, Level};

fn cells(level: u32) -> std::ops::Range<u32> {
    0..cells_of(level) as u32
}

#[test]
fn numbers_and_places_go_back_and_forth() {
    for level in 0..=6 {
        for cell in cells(level) {
            assert!(exists(level, place_of(level, cell)));
            assert_eq!(number_of(level, place_of(level, cell)), cell);
        }
    }
}

#[test]
fn a_centre_lies_in_its_cell() {
    let mut random = Random::new(1);
    let small = (0..=5).flat_map(|level| cells(level).map(move |cell| (level, cell)));
    let large: Vec<(u32, u32)> = (6..=14)
        .flat_map(|level| (0..2000).map(move |_| level))
        .map(|level| (level, random.cell(level)))
        .collect();
    for (level, cell) in small.chain(large) {
        let (latitude, longitude) = centre(level, cell).unwrap();
        assert_eq!(cell_at(level, latitude, longitude), Ok(cell));
    }
}

#[test]
fn steps_lead_back_and_codes_are_found() {
    let back = [0, 2, 1, 4, 3, 5, 7, 6];
    for level in 0..=5 {
        for cell in cells(level) {
            let mut met = Vec::new();
            for c in CODES.clone() {
                if let Ok(to) = step(level, cell, c) {
                    assert_eq!(step(level, to, back[c as usize]), Ok(cell));
                    assert_eq!(code(level, cell, to), Ok(c));
                    assert!(!met.contains(&to), "two codes lead to one cell");
                    met.push(to);
                }
            }
            assert!(direct(level, cell).iter().all(|to| met.contains(to)));
        }
    }
}

#[test]
fn touching_is_the_same_both_ways() {
    for level in 0..=6 {
        let n = 2i64.pow(level);
        for cell in cells(level) {
            let list = &Level::of(level).touching[cell as usize];
            assert_eq!(*list, touching_by_points(level, cell));
            let place = place_of(level, cell);
            let up = place.kind == crate::cells::Kind::Up;
            let tips = [(0, 0), (n - 1, 0), (0, n - 1)];
            let tip = up && tips.contains(&(place.row, place.col));
            let expected = match (level, tip) {
                (0, _) => 6,
                (_, true) => 10,
                _ => 12,
            };
            assert_eq!(list.len(), expected);
            for other in list {
                assert!(Level::of(level).touching[*other as usize].contains(&cell));
            }
            assert!(direct(level, cell).iter().all(|to| list.contains(to)));
        }
    }
}

/// One ring by the word of the definition: a cell is marked when it or a touching cell is.
fn one_ring(level: u32, mask: &[u8]) -> Vec<u8> {
    let old = marks(mask);
    let near = |cell: usize| {
        let list = &Level::of(level).touching[cell];
        old[cell] || list.iter().any(|&other| old[other as usize])
    };
    crate::masks::mask_of(&(0..old.len()).map(near).collect::<Vec<bool>>())
}

#[test]
fn growing_is_ring_after_ring() {
    let mut random = Random::new(2);
    for level in 0..=4 {
        let bytes = mask_bytes(level);
        for _ in 0..20 {
            let mut mask = vec![0; bytes];
            for _ in 0..random.below(4) {
                mask[random.index(bytes)] |= 1 << random.below(8);
            }
            let mut ringed = mask.clone();
            for rings in 0..8 {
                assert_eq!(grow(level, rings, &mask, bytes, bytes).as_ref(), Ok(&ringed));
                let turned: Vec<u8> = mask.iter().map(|b| !b).collect();
                let shrunk: Vec<u8> = ringed.iter().map(|b| !b).collect();
                assert_eq!(shrink(level, rings, &turned, bytes, bytes), Ok(shrunk));
                ringed = one_ring(level, &ringed);
            }
        }
    }
}

#[test]
fn join_count_and_within() {
    for (a, b) in (0..=255u8).flat_map(|a| (0..=255u8).map(move |b| (a, b))) {
        assert_eq!(join(0, &[a], &[b], 1), Ok(vec![a | b]));
        let lacking = (a & !b).trailing_zeros();
        let expected = if a & !b == 0 { WITHIN } else { lacking };
        assert_eq!(within(0, &[a], &[b]), Ok(expected));
        assert_eq!(count(0, &[a]), Ok(a.count_ones()));
    }
}

#[test]
fn fills() {
    // No border: the outside reaches all, so nothing is marked.
    assert_eq!(fill(2, &[0; 16], 100, 16), Ok(vec![0; 16]));
    // At level 0 the three direct neighbours of octant 0 (1, 3 and 4) shut it in.
    assert_eq!(fill(0, &[0b0001_1010], 6, 1), Ok(vec![0b0001_1011]));
    assert_eq!(fill(0, &[0b0001_1010], 0, 1), Ok(vec![0b1111_1110]));
    assert_eq!(fill(0, &[0b0001_1010], 1, 1), Err(8));
}
