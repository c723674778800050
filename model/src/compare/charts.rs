//! Readings and days, with temperatures at and beside every bound.

use super::chart_calls::{self, day, Chart};
use super::shapes;
use crate::tally::Tally;
use model::cells::cells_of;
use model::masks::mask_bytes;
use model::random::Random;

/// Bits of temperatures to look out for.
#[rustfmt::skip]
const TEMPERATURES: [u32; 32] = [
    0x7FC0_0000, 0xFFC0_0000, // no number, of both signs
    0x7F80_0001, 0xFF80_0001, // no number, signalling
    0x7FFF_FFFF, 0xFFFF_FFFF, 0x7FC1_2345, // no number, other payloads
    0x7F80_0000, 0xFF80_0000, // the infinities
    0x7F7F_FFFF, 0xFF7F_FFFF, // the largest
    0x0000_0000, 0x8000_0000, // both zeros
    0x0000_0001, 0x8000_0001, 0x007F_FFFF, 0x807F_FFFF, // subnormal
    0x0080_0000, 0x8080_0000, // the smallest normal
    0xC09F_FFFF, 0xC0A0_0000, 0xC0A0_0001, // −5 and its neighbours
    0x4233_FFFF, 0x4234_0000, 0x4234_0001, // 45 and its neighbours
    0x40A0_0000, 0xC234_0000, // 5 and −45
    0x3F80_0000, 0xBF80_0000, 0x41A0_0000, 0x4238_0000, 0xC0C0_0000, // 1, −1, 20, 46, −6
];

/// Limits of every kind.
fn limits() -> Vec<u32> {
    (0..=32).chain([255, 256, 257, 1 << 31, u32::MAX]).collect()
}

/// So many charts of each level, from 0.
const CHARTS: [u32; 8] = [4000, 3000, 2000, 1000, 400, 200, 100, 5];

/// A temperature: mostly in range, of few values so that equals meet, or one of the list.
fn some_temperature(random: &mut Random) -> u32 {
    match random.below(8) {
        0 => random.pick(&TEMPERATURES),
        1 => random.word(),
        2 => (random.below(6) as f32).to_bits(),
        3 => (-(random.below(7) as f32)).to_bits(),
        _ => (random.below(50_000) as f32 / 1000.0 - 5.0).to_bits(),
    }
}

fn some_temperatures(random: &mut Random, level: u32) -> Vec<u32> {
    (0..cells_of(level)).map(|_| some_temperature(random)).collect()
}

pub fn some_chart(random: &mut Random, level: u32) -> Chart {
    let age = |random: &mut Random| match random.below(4) {
        0 => random.byte(),
        1 => random.pick(&[0, 0, 29, 30, 31, 254, 255]),
        _ => random.below(31) as u8,
    };
    let temperatures = some_temperatures(random, level);
    let ages = (0..cells_of(level)).map(|_| age(random)).collect();
    Chart { temperatures, ages }
}

/// A chart lives through several days.
fn days(tally: &mut Tally, random: &mut Random, level: u32, days: u32) {
    let mut chart = some_chart(random, level);
    for _ in 0..days {
        let news = some_temperatures(random, level);
        let cloud = shapes::any(random, level);
        chart = day(tally, level, random.pick(&limits()), &news, &cloud, &chart);
    }
}

pub fn random_days(tally: &mut Tally, random: &mut Random, level: u32) {
    for _ in 0..CHARTS[level as usize] {
        days(tally, random, level, 4);
    }
}

pub fn full_size(tally: &mut Tally, random: &mut Random) {
    days(tally, random, 8, 3);
}

/// Every age with every limit, old and new temperatures from the list, clouded and not: level 3
/// has room for all ages twice.
pub fn ages_and_limits(tally: &mut Tally, _: &mut Random) {
    let level = 3;
    let cells = cells_of(level) as usize;
    let ages: Vec<u8> = (0..cells).map(|cell| cell as u8).collect();
    let cloud: Vec<u8> =
        (0..mask_bytes(level)).map(|byte| if byte < 32 { 255 } else { 0 }).collect();
    for limit in limits() {
        for old in TEMPERATURES {
            let chart = Chart { temperatures: vec![old; cells], ages: ages.clone() };
            for new in TEMPERATURES {
                day(tally, level, limit, &vec![new; cells], &cloud, &chart);
            }
        }
    }
}

/// Readings of every age at every temperature of the list, and of random charts of all levels.
pub fn readings(tally: &mut Tally, random: &mut Random) {
    let cells: Vec<u32> = (0..cells_of(3) as u32).collect();
    let ages: Vec<u8> = cells.iter().map(|&cell| cell as u8).collect();
    for temperature in TEMPERATURES {
        let temperatures = vec![temperature; cells.len()];
        chart_calls::readings(tally, 3, &cells, &Chart { temperatures, ages: ages.clone() });
    }
    for level in 0..=8 {
        for _ in 0..if level < 7 { 40 } else { 2 } {
            let chart = some_chart(random, level);
            let mut cells: Vec<u32> = (0..500).map(|_| random.cell(level)).collect();
            let past = cells_of(level) as u32;
            cells.extend([past - 1, past, past + 1, u32::MAX]);
            chart_calls::readings(tally, level, &cells, &chart);
        }
    }
}
