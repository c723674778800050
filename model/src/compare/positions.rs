//! Positions: named ones at edges and poles, and random ones on and beside borders between cells.

use super::calls::cell_at;
use crate::tally::Tally;
use model::cells::rows;
use model::positions::{BEGINNINGS, Q};
use model::random::Random;

/// Random positions of one task; there are four tasks.
const RANDOM_POSITIONS: u32 = 1_000_000;

/// Levels of every kind, refused ones too.
pub fn levels() -> Vec<u32> {
    let above = [15, 16, 17, 30, 31, 32, 33, 64, 255, 256, 1 << 31, u32::MAX];
    (0..=14).chain(above).collect()
}

/// Each whole number with its two neighbours, as far as 32 bits go.
fn with_neighbours(values: &[i128]) -> Vec<i32> {
    let near = values.iter().flat_map(|v| [v - 1, *v, v + 1]);
    let mut list: Vec<i32> = near.filter_map(|v| i32::try_from(v).ok()).collect();
    list.sort_unstable();
    list.dedup();
    list
}

/// The equator, the poles, octant edges and some borders within, the ends of ranges and of 32
/// bits, each with its neighbours; all latitudes with all longitudes, at all levels.
pub fn named_positions(tally: &mut Tally, _: &mut Random) {
    let ends = [i128::from(i32::MIN), i128::from(i32::MAX)];
    let parts = [0, Q / 4, Q / 3, Q / 2, 2 * Q / 3, 3 * Q / 4, Q];
    let both: Vec<i128> = parts.iter().flat_map(|&p| [p, -p]).chain(ends).collect();
    let latitudes = with_neighbours(&both);
    let turns = (-2..=2).flat_map(|turn| [turn * Q, turn * Q + Q / 3, turn * Q + Q / 2]);
    let longitudes = with_neighbours(&turns.chain(ends).collect::<Vec<i128>>());
    for level in levels() {
        for &latitude in &latitudes {
            for &longitude in &longitudes {
                cell_at(tally, level, latitude, longitude);
            }
        }
    }
}

/// Parts of q whose rows and columns have borders at whole millionths.
const PARTS: [i128; 16] = [2, 3, 4, 5, 6, 8, 9, 10, 12, 15, 16, 32, 64, 125, 128, 625];

fn below(random: &mut Random, bound: i128) -> i128 {
    i128::from(random.below(bound as u64))
}

/// The size of a latitude: on a row's border, at an even part of q, near an end, or any.
fn some_latitude(random: &mut Random, n: i128) -> i128 {
    let p = match random.below(4) {
        0 => Q * below(random, n + 1) / n,
        1 => {
            let part = random.pick(&PARTS);
            Q / part * below(random, part + 1)
        }
        2 => random.pick(&[0, 1, 2, Q - 3, Q - 2, Q - 1, Q]),
        _ => below(random, Q + 1),
    };
    (p + random.pick(&[-1, 0, 0, 0, 1])).clamp(0, Q)
}

/// A whole number to `most`, often one that many powers of 2 divide: there exact borders lie.
fn some_column(random: &mut Random, n: i128, most: i128) -> i128 {
    let coarse = n >> random.below(15).min(n.ilog2().into());
    coarse * below(random, most / coarse + 1)
}

/// A longitude within its octant: on the border where R or T + R is whole, near an end, or any.
fn some_longitude(random: &mut Random, n: i128, p: i128) -> i128 {
    let across = n * (Q - p);
    let m = match random.below(6) {
        0 | 1 if across > 0 => some_column(random, n, across / Q) * Q * Q / across,
        2 | 3 if across > 0 => {
            let whole = n - some_column(random, n, across / Q);
            (whole * Q - n * p) * Q / across
        }
        4 => random.pick(&[0, 1, Q / 2, Q / 3, Q - 2, Q - 1]),
        _ => below(random, Q),
    };
    (m + random.pick(&[-1, 0, 0, 1])).clamp(0, Q - 1)
}

pub fn random_positions(tally: &mut Tally, random: &mut Random) {
    for _ in 0..RANDOM_POSITIONS {
        let level = random.below(15) as u32;
        let n = i128::from(rows(level));
        let p = some_latitude(random, n);
        let m = some_longitude(random, n, p);
        let latitude = if random.chance(1, 2) { p } else { -p };
        let longitude = random.pick(&BEGINNINGS) + m;
        cell_at(tally, level, latitude as i32, longitude as i32);
    }
}
