//! Refused calls: every fault that a call can have, alone and together with each other one, so
//! that the order of refusals is seen. All slices are compared after each call.

use super::calls::{cell_at, centre, code, step, touching};
use super::chart_calls::{day, readings, Chart};
use super::mask_calls::{count, fill, grow, join, shrink, within};
use super::positions::levels;
use crate::tally::Tally;
use model::cells::cells_of;
use model::masks::mask_bytes;
use model::random::Random;

/// Cell numbers about the end of a level and about the ends of 31 and 32 bits.
fn cell_numbers(level: u32) -> Vec<u32> {
    let end = if level <= 14 { cells_of(level) as u32 } else { 8 };
    let mut list = vec![0, 1, end - 1, end, end + 1, u32::MAX / 4, i32::MAX as u32, 1 << 31];
    list.extend([(1 << 31) + 1, u32::MAX - 1, u32::MAX]);
    list
}

pub fn cells(tally: &mut Tally, random: &mut Random) {
    let codes = (0..10).chain([15, 16, 255, 256, 1 << 16, 1 << 31, u32::MAX]);
    let codes: Vec<u32> = codes.collect();
    for level in levels() {
        for latitude in [-90_000_001, -90_000_000, 0, 90_000_000, 90_000_001, i32::MIN, i32::MAX] {
            for longitude in [-180_000_001, -180_000_000, 179_999_999, 180_000_000, i32::MIN] {
                cell_at(tally, level, latitude, longitude);
            }
        }
        for cell in cell_numbers(level) {
            centre(tally, level, cell);
            for &code in &codes {
                step(tally, level, cell, code);
            }
            for other in cell_numbers(level) {
                code(tally, level, cell, other);
            }
            for length in [0, 1, 6, 11, 12, 13, 24, 100] {
                let slice: Vec<u32> = (0..length).map(|_| random.word()).collect();
                touching(tally, level, cell, &slice);
            }
        }
    }
}

/// Levels for masks: sound ones, and ones above whose powers of 4 pass 32 or 64 bits.
const MASK_LEVELS: [u32; 16] =
    [0, 1, 2, 3, 9, 10, 14, 15, 16, 17, 31, 32, 33, 64, 1 << 31, u32::MAX];

/// Lengths about the right one, and other levels' lengths.
fn lengths(right: usize) -> Vec<usize> {
    let mut list = vec![right, right - 1, right + 1, 0, right * 4, right * 8];
    list.dedup();
    list
}

/// The right length at a sound level; above, some length.
fn right_length(level: u32) -> usize {
    mask_bytes(if level <= 8 { level } else { level % 4 })
}

pub fn masks_and_charts(tally: &mut Tally, random: &mut Random) {
    for level in MASK_LEVELS {
        mask_faults(tally, random, level);
        chart_faults(tally, random, level);
    }
    // The level above the bound with slices that would be right there, and full size.
    for level in [8, 9] {
        let bytes = mask_bytes(level);
        let (a, b, c) = (random.bytes(bytes), random.bytes(bytes), random.bytes(bytes));
        for cut in [0, 1] {
            let c = &c[cut..];
            grow(tally, level, 65, &a, &b, c);
            shrink(tally, level, 65, &a, &b, c);
            join(tally, level, &a, &b, c);
            within(tally, level, &a, c);
            count(tally, level, c);
            fill(tally, level, &a, (bytes * 8 - cut) as u32, c);
            fill(tally, level, &vec![255; bytes], random.cell(level), c);
            chart_faults_of(
                tally,
                random,
                level,
                31,
                [bytes * 8, bytes, bytes * 8 - cut, bytes * 8],
            );
        }
    }
}

fn mask_faults(tally: &mut Tally, random: &mut Random, level: u32) {
    let right = right_length(level);
    for x in lengths(right) {
        let a = random.bytes(x);
        count(tally, level, &a);
        for y in lengths(right) {
            let b = random.bytes(y);
            within(tally, level, &a, &b);
            fill_faults(tally, level, &a, &b);
            for z in lengths(right) {
                let c = random.bytes(z);
                join(tally, level, &a, &b, &c);
                for rings in [0, 1, 64, 65, 1 << 31, u32::MAX] {
                    grow(tally, level, rings, &a, &b, &c);
                    shrink(tally, level, rings, &a, &b, &c);
                }
            }
        }
    }
}

/// Fill with marked and unmarked outside cells and ones past the end.
fn fill_faults(tally: &mut Tally, level: u32, border: &[u8], out: &[u8]) {
    let all = vec![255; border.len()];
    let none = vec![0; border.len()];
    for outside in cell_numbers(level.min(8)) {
        for border in [border, &all, &none] {
            fill(tally, level, border, outside, out);
        }
    }
}

/// Charts with each slice of a wrong length, alone and with others, and limits above 30.
fn chart_faults(tally: &mut Tally, random: &mut Random, level: u32) {
    let right = right_length(level);
    let wrong = |right: usize| [right, right - 1, right + 1, 0];
    for limit in [0, 30, 31, u32::MAX] {
        for news in wrong(right * 8) {
            for cloud in wrong(right) {
                for temperatures in wrong(right * 8) {
                    for ages in wrong(right * 8) {
                        let lengths = [news, cloud, temperatures, ages];
                        chart_faults_of(tally, random, level, limit, lengths);
                    }
                }
            }
        }
    }
}

/// A day and some readings with slices of these lengths: news, cloud, temperatures, ages.
fn chart_faults_of(
    tally: &mut Tally,
    random: &mut Random,
    level: u32,
    limit: u32,
    lengths: [usize; 4],
) {
    let words = |random: &mut Random, length| (0..length).map(|_| random.word()).collect();
    let news: Vec<u32> = words(random, lengths[0]);
    let cloud = random.bytes(lengths[1]);
    let temperatures = words(random, lengths[2]);
    let chart = Chart { temperatures, ages: random.bytes(lengths[3]) };
    day(tally, level, limit, &news, &cloud, &chart);
    if lengths[2] < 1000 {
        readings(tally, level, &cell_numbers(level.min(8)), &chart);
    }
}
