//! Calls that depend on a cell's place: centre, steps, codes, touching, and the cell at the centre.

use super::calls::{cell_at, centre, code, step, touching};
use crate::tally::Tally;
use model::cells::cells_of;
use model::positions;
use model::random::Random;

/// The highest level of which every cell is tried.
const EVERY_CELL: u32 = 6;
/// Random cells of one task; there are ten tasks.
const RANDOM_CELLS: u32 = 100_000;

/// What the touching slice holds before a call.
const BEFORE: [u32; 12] = [7; 12];

/// Every cell of an octant at levels 0 to 6.
pub fn every_cell(tally: &mut Tally, random: &mut Random, octant: u32) {
    for level in 0..=EVERY_CELL {
        let octant_cells = 4u32.pow(level);
        for cell in octant * octant_cells..(octant + 1) * octant_cells {
            all_of(tally, random, level, cell);
        }
    }
}

/// All calls for one cell: every code and one above, every touching cell, and the positions at
/// and about the centre.
fn all_of(tally: &mut Tally, random: &mut Random, level: u32, cell: u32) {
    centre(tally, level, cell);
    for code in 0..=8 {
        step(tally, level, cell, code);
    }
    for other in touching(tally, level, cell, &BEFORE) {
        code(tally, level, cell, other);
    }
    code(tally, level, cell, cell);
    code(tally, level, cell, random.cell(level));
    let (latitude, longitude) = positions::centre(level, cell).expect("a cell has a centre");
    for (north, east) in (-1..=1).flat_map(|n| (-1..=1).map(move |e| (n, e))) {
        cell_at(tally, level, latitude + north, longitude + east);
    }
}

/// A cell of the level: any, or one whose digits keep to two or three values, so that it lies at
/// an edge or at a tip of its octant or of a large triangle.
pub fn some_cell(random: &mut Random, level: u32) -> u32 {
    if random.chance(1, 2) {
        return random.cell(level);
    }
    let digits: &[u32] =
        random.pick(&[&[1, 2][..], &[1, 3], &[2, 3], &[1], &[2], &[3], &[0, 2], &[0, 1], &[0, 3]]);
    let mut cell = random.below(8) as u32;
    let odd_one = random.below(30) as u32;
    for place in 0..level {
        let digit = if place == odd_one { random.below(4) as u32 } else { random.pick(digits) };
        cell = cell * 4 + digit;
    }
    cell
}

/// Random cells of all levels, most of them above those of which every cell is tried.
pub fn random_cells(tally: &mut Tally, random: &mut Random) {
    for _ in 0..RANDOM_CELLS {
        let level = if random.chance(1, 8) { random.below(15) } else { 7 + random.below(8) } as u32;
        let cell = some_cell(random, level);
        assert!(u64::from(cell) < cells_of(level));
        centre(tally, level, cell);
        let (latitude, longitude) = positions::centre(level, cell).expect("a cell has a centre");
        cell_at(tally, level, latitude, longitude);
        for code_number in 0..8 {
            if let Some(to) = step(tally, level, cell, code_number) {
                code(tally, level, cell, to);
            }
        }
        let list = touching(tally, level, cell, &BEFORE);
        code(tally, level, cell, random.pick(&list));
        code(tally, level, cell, some_cell(random, level));
    }
}
