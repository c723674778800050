//! The worked examples of docs/RULES.md, 11, and the two programs of section 10.

use super::address;
use crate::borders;
use crate::cells::{number_of, place_of, Kind, Place};
use crate::charts;
use crate::masks::{grow, shrink};
use crate::positions::{cell_at, centre};
use crate::programs::{cell_lister, ring_counter};
use crate::steps::{code, step};

fn steps_to(from: &str, code: u32, to: &str) {
    let (level, cell) = address(from);
    assert_eq!(step(level, cell, code), Ok(address(to).1));
}

#[test]
fn cells_203_and_67() {
    assert_eq!(address("03023"), (4, 203));
    assert_eq!(address("01003"), (4, 67));
    let down = Place { octant: 0, kind: Kind::Down, row: 3, col: 9 };
    let up = Place { octant: 0, kind: Kind::Up, row: 10, col: 3 };
    assert_eq!((place_of(4, 203), number_of(4, down)), (down, 203));
    assert_eq!((place_of(4, 67), number_of(4, up)), (up, 67));
}

#[test]
fn steps_of_source_000() {
    steps_to("02323", 5, "42323");
    steps_to("01313", 6, "11212");
    steps_to("01212", 7, "31313");
    steps_to("00000", 3, "00031");
    steps_to("00000", 4, "00021");
    steps_to("00000", 0, "00001");
    steps_to("00000", 1, "00002");
    steps_to("00000", 2, "00003");
    assert_eq!(code(4, 0, address("00031").1), Ok(3));
}

#[test]
fn positions() {
    assert_eq!(cell_at(1, 22_500_000, 30_000_000), Ok(0));
    assert_eq!(cell_at(1, 22_500_000, 29_999_999), Ok(2));
    assert_eq!(cell_at(1, 45_000_000, 0), Ok(1));
    assert_eq!(cell_at(1, 44_999_999, 0), Ok(2));
    assert_eq!(cell_at(14, -1, 0), Ok(1_252_698_794));
    assert_eq!(cell_at(1, 90_000_000, -180_000_000), Ok(9));
    assert_eq!(cell_at(1, 90_000_001, 180_000_000), Err(2));
    assert_eq!(cell_at(1, 0, 180_000_000), Err(3));
    assert_eq!(cell_at(15, 0, 0), Err(1));
}

#[test]
fn centres() {
    assert_eq!(centre(0, 7), Ok((-30_000_000, -45_000_000)));
    assert_eq!(centre(1, 2), Ok((15_000_000, 18_000_000)));
}

#[test]
fn masks_of_level_0() {
    assert_eq!(grow(0, 1, &[1], 1, 1), Ok(vec![191]));
    assert_eq!(grow(0, 2, &[1], 1, 1), Ok(vec![255]));
    assert_eq!(shrink(0, 1, &[191], 1, 1), Ok(vec![1]));
    assert_eq!(grow(9, 1, &[0; 262_144], 262_144, 262_144), Err(1));
}

/// The age that a clouded cell in range gets on a day with this limit.
fn aged(limit: u32, age: u8) -> u8 {
    let day = charts::day(0, limit, &[0.0; 8], &[255], &[12.5; 8], &[age; 8]).ok().unwrap();
    day.ages[0]
}

#[test]
fn days() {
    assert_eq!(aged(2, 1), 2);
    assert_eq!(aged(2, 2), 255);
    assert!((0..=255).all(|age| aged(0, age) == 255));
    assert!((0..=255).all(|age| aged(30, age) == if age < 30 { age + 1 } else { 255 }));
}

#[test]
fn the_summary_keeps_the_first_of_equals() {
    let news = [f32::NAN, -0.0, 0.0, 46.0, -6.0, 0.0, -0.0, 0.0];
    let day = charts::day(0, 3, &news, &[0], &[1.0; 8], &[2; 8]).ok().unwrap();
    assert_eq!(day.ages, [3, 0, 0, 3, 3, 0, 0, 0]);
    assert_eq!(day.summary.count, 5);
    assert_eq!(day.summary.coldest.to_bits(), (-0.0f32).to_bits());
    assert_eq!(day.summary.warmest.to_bits(), (-0.0f32).to_bits());
}

#[test]
fn programs() {
    assert_eq!(cell_lister(&[4, 0, 2, 0x0B]), "level 4\n0\n13\n3\n");
    assert_eq!(borders::write(4, &[0, 13, 3], 4), Ok(vec![4, 0, 2, 0x0B]));
    let mut input = vec![0; 1025];
    input[0] = 1;
    input[1] = 1;
    assert_eq!(ring_counter(&input), "1 13\n");
    input[0] = 65;
    assert_eq!(ring_counter(&input), "refused 6\n");
    assert_eq!(ring_counter(&input[1..]), "refused 5\n");
    assert_eq!(ring_counter(&[]), "refused 5\n");
    assert_eq!(cell_lister(&[]), "refused 10\n");
}
