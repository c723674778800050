//! The refused calls, and the order of refusals.

use crate::borders::{self, number_bytes};
use crate::charts::{day, reading, Reading};
use crate::fills::fill;
use crate::masks::{count, grow, join, shrink, within};
use crate::positions::{cell_at, centre};
use crate::steps::{code, step};
use crate::touching::touching;

#[test]
fn cells() {
    assert_eq!(centre(15, u32::MAX), Err(1));
    assert_eq!(centre(0, 8), Err(4));
    assert_eq!(step(15, u32::MAX, 8), Err(1));
    assert_eq!(step(3, 512, 8), Err(4));
    assert_eq!(step(3, 511, 8), Err(7));
    assert_eq!(step(0, 0, 0), Err(7));
    assert_eq!(code(15, 0, 0), Err(1));
    assert_eq!(code(1, 32, 0), Err(4));
    assert_eq!(code(1, 0, 32), Err(4));
    assert_eq!(code(1, 0, 0), Err(7));
    assert_eq!(touching(15, u32::MAX, 0), Err(1));
    assert_eq!(touching(0, 8, 0), Err(4));
    assert_eq!(touching(0, 7, 11), Err(5));
    assert_eq!(cell_at(15, i32::MAX, i32::MIN), Err(1));
    assert_eq!(cell_at(14, -90_000_001, -180_000_001), Err(2));
    assert_eq!(cell_at(14, -90_000_000, -180_000_001), Err(3));
    assert_eq!(cell_at(14, 90_000_000, 179_999_999).map(|c| c >> 28), Ok(1));
}

#[test]
fn masks() {
    assert_eq!(grow(9, 65, &[], 0, 0), Err(1));
    assert_eq!(grow(1, 65, &[0; 4], 4, 3), Err(5));
    assert_eq!(grow(1, 65, &[0; 4], 4, 4), Err(6));
    assert_eq!(shrink(1, 65, &[0; 4], 5, 4), Err(5));
    assert_eq!(shrink(1, 65, &[0; 4], 4, 4), Err(6));
    assert_eq!(join(1, &[0; 4], &[0; 4], 3), Err(5));
    assert_eq!(count(1, &[0; 5]), Err(5));
    assert_eq!(within(9, &[0; 4], &[0; 4]), Err(1));
    assert_eq!(fill(9, &[], 0, 0), Err(1));
    assert_eq!(fill(1, &[], 32, 0), Err(4));
    assert_eq!(fill(1, &[255; 4], 31, 3), Err(5));
    assert_eq!(fill(1, &[255; 4], 31, 4), Err(8));
}

#[test]
fn charts() {
    assert_eq!(reading(9, 0, &[], &[]), Err(1));
    assert_eq!(reading(0, 8, &[], &[]), Err(4));
    assert_eq!(reading(0, 7, &[0.0; 8], &[0; 7]), Err(5));
    assert_eq!(reading(0, 7, &[45.0; 8], &[0; 8]), Ok(Reading::Fresh(45.0)));
    assert_eq!(reading(0, 7, &[-5.0; 8], &[30; 8]), Ok(Reading::Carried(-5.0, 30)));
    assert_eq!(reading(0, 7, &[-5.0; 8], &[31; 8]), Ok(Reading::Gap));
    assert_eq!(reading(0, 7, &[f32::NAN; 8], &[0; 8]), Ok(Reading::Gap));
    assert_eq!(day(9, 31, &[], &[], &[], &[]).err(), Some(1));
    assert_eq!(day(0, 31, &[0.0; 8], &[0; 2], &[0.0; 8], &[0; 8]).err(), Some(5));
    assert_eq!(day(0, 31, &[0.0; 8], &[0], &[0.0; 8], &[0; 8]).err(), Some(6));
}

#[test]
fn border_numbers() {
    assert_eq!(number_bytes(0), [0]);
    assert_eq!(number_bytes(300), [0xAC, 2]);
    assert_eq!(number_bytes(u32::MAX), [255, 255, 255, 255, 15]);
    let number = |bytes: &[u8]| borders::read(bytes, 1).err();
    assert_eq!(number(&[]), Some(10));
    assert_eq!(number(&[128, 128, 128, 128]), Some(10));
    assert_eq!(number(&[128, 128, 128, 128, 128]), Some(11));
    assert_eq!(number(&[128, 0]), Some(11));
    assert_eq!(number(&[255, 255, 255, 255, 16]), Some(11));
    assert_eq!(number(&[255, 255, 255, 255, 15]), Some(1));
    assert_eq!(number(&[15]), Some(1));
    assert_eq!(number(&[14]), Some(10));
    assert_eq!(number(&[0, 8]), Some(4));
    assert_eq!(number(&[0, 136, 0]), Some(11));
    assert_eq!(number(&[0, 7, 0x81, 0x20]), Some(9));
}

#[test]
fn border_tails() {
    // Level 4 from cell 0 by e and l, as the example of docs/RULES.md, 8.
    let read = |bytes: &[u8], room| borders::read(bytes, room).map(|(_, cells)| cells.len());
    assert_eq!(read(&[4, 0, 2, 0x0B], 3), Ok(3));
    assert_eq!(read(&[4, 0, 2, 0x0B], 2), Err(5));
    assert_eq!(read(&[4, 0, 2], 0), Err(10));
    assert_eq!(read(&[4, 0, 2, 0x4B], 0), Err(12));
    assert_eq!(read(&[4, 0, 2, 0x0B, 0], 0), Err(12));
    // At level 0 no cell has code t: 7, but 5 stands before it.
    assert_eq!(read(&[0, 0, 1, 0], 1), Err(5));
    assert_eq!(read(&[0, 0, 1, 0], 2), Err(7));
    assert_eq!(read(&[0, 0, 0], 1), Ok(1));
}

#[test]
fn border_writer() {
    let write = |level, cells: &[u32], room| borders::write(level, cells, room);
    assert_eq!(write(15, &[], 0), Err(1));
    assert_eq!(write(0, &[], 0), Err(5));
    assert_eq!(write(0, &[8; 4098], 0), Err(9));
    assert_eq!(write(0, &[8; 4097], 0), Err(4));
    assert_eq!(write(0, &[0, 2, 8], 0), Err(4));
    assert_eq!(write(0, &[0, 2, 3], 0), Err(7));
    assert_eq!(write(0, &[0, 1, 2], 3), Err(5));
    // Two times E, which is code 6.
    assert_eq!(write(0, &[0, 1, 2], 4), Ok(vec![0, 0, 2, 0b0011_0110]));
}
