//! Charts and ages (docs/RULES.md, 7).

use crate::cells::{cells_of, check_cell, check_level, MAX_MASK_LEVEL};
use crate::masks::{marks, mask_bytes};
use crate::refusals::{refuse, Answer, COUNT, LENGTH};

/// The most days that a temperature is carried.
pub const MAX_DAYS: u32 = 30;
/// The age of a gap that a day leaves.
pub const GAP_AGE: u8 = 255;

/// What a cell answers.
#[derive(Clone, Copy, PartialEq, Debug)]
pub enum Reading {
    Fresh(f32),
    Carried(f32, u32),
    Gap,
}

/// The summary of the fresh cells.
#[derive(Clone, Copy, PartialEq, Debug)]
pub struct Summary {
    pub count: u32,
    pub coldest: f32,
    pub warmest: f32,
}

/// What a day leaves.
pub struct Day {
    pub temperatures: Vec<f32>,
    pub ages: Vec<u8>,
    pub summary: Summary,
}

/// In range; a value that is no number fails both comparisons.
#[allow(clippy::manual_range_contains)]
pub fn in_range(temperature: f32) -> bool {
    -5.0 <= temperature && temperature <= 45.0
}

fn reading_of(temperature: f32, age: u8) -> Reading {
    match age {
        _ if !in_range(temperature) => Reading::Gap,
        0 => Reading::Fresh(temperature),
        1..=30 => Reading::Carried(temperature, u32::from(age)),
        _ => Reading::Gap,
    }
}

/// A cell's reading.
pub fn reading(level: u32, cell: u32, temperatures: &[f32], ages: &[u8]) -> Answer<Reading> {
    check_level(level, MAX_MASK_LEVEL)?;
    check_cell(level, cell)?;
    let cells = cells_of(level) as usize;
    refuse(LENGTH, temperatures.len() != cells || ages.len() != cells)?;
    Ok(reading_of(temperatures[cell as usize], ages[cell as usize]))
}

/// One cell's day: its temperature and age from now on.
fn cell_day(limit: u32, clouded: bool, new: f32, old: f32, age: u8) -> (f32, u8) {
    let older = u32::from(age) + 1;
    if !clouded && in_range(new) {
        (new, 0)
    } else if older <= limit && in_range(old) {
        (old, older as u8)
    } else {
        (0.0, GAP_AGE)
    }
}

/// One day of a chart, with the summary of the chart it leaves.
pub fn day(
    level: u32,
    limit: u32,
    news: &[f32],
    cloud: &[u8],
    temperatures: &[f32],
    ages: &[u8],
) -> Answer<Day> {
    check_level(level, MAX_MASK_LEVEL)?;
    let cells = cells_of(level) as usize;
    let wrong = [news.len(), temperatures.len(), ages.len()].iter().any(|&n| n != cells);
    refuse(LENGTH, wrong || cloud.len() != mask_bytes(level))?;
    refuse(COUNT, limit > MAX_DAYS)?;

    let clouded = marks(cloud);
    let today = |c: usize| cell_day(limit, clouded[c], news[c], temperatures[c], ages[c]);
    let (temperatures, ages): (Vec<f32>, Vec<u8>) = (0..cells).map(today).unzip();
    let summary = summary_of(&temperatures, &ages);
    Ok(Day { temperatures, ages, summary })
}

/// Count, coldest and warmest of the fresh cells; the first in cell order stands.
fn summary_of(temperatures: &[f32], ages: &[u8]) -> Summary {
    let readings = temperatures.iter().zip(ages).map(|(&t, &age)| reading_of(t, age));
    let nothing = Summary { count: 0, coldest: 0.0, warmest: 0.0 };
    readings.fold(nothing, |sum, reading| match reading {
        Reading::Fresh(t) if sum.count == 0 => Summary { count: 1, coldest: t, warmest: t },
        Reading::Fresh(t) => Summary {
            count: sum.count + 1,
            coldest: if t < sum.coldest { t } else { sum.coldest },
            warmest: if t > sum.warmest { t } else { sum.warmest },
        },
        _ => sum,
    })
}
