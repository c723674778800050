//! Cells and their numbers (docs/RULES.md, 1).

use crate::refusals::{refuse, Answer, CELL, LEVEL};

/// The highest level of cells and borders.
pub const MAX_CELL_LEVEL: u32 = 14;
/// The highest level of masks and charts.
pub const MAX_MASK_LEVEL: u32 = 8;

/// An up cell has its corner towards the pole, a down cell towards the equator.
#[derive(Clone, Copy, PartialEq, Eq, Debug)]
pub enum Kind {
    Up,
    Down,
}
use Kind::{Down, Up};

impl Kind {
    /// The s of a centre: how many thirds of a row and of a column it lies inside its cell.
    pub fn thirds(self) -> i64 {
        match self {
            Up => 1,
            Down => 2,
        }
    }
}

/// Where a cell lies: its octant, its kind, its row a from the equator and its column b from
/// the west edge.
#[derive(Clone, Copy, PartialEq, Eq, Debug)]
pub struct Place {
    pub octant: i64,
    pub kind: Kind,
    pub row: i64,
    pub col: i64,
}

/// N = 2^k, the number of rows of an octant.
pub fn rows(level: u32) -> i64 {
    2i64.pow(level)
}

/// 8 × 4^k, the number of cells of a level.
pub fn cells_of(level: u32) -> u64 {
    8 * 4u64.pow(level)
}

/// The four children of a cell, in the order of their digits.
pub fn children(parent: Place) -> [Place; 4] {
    let (a, b) = (parent.row, parent.col);
    let child = |kind, row, col| Place { kind, row, col, ..parent };
    match parent.kind {
        Up => [
            child(Down, 2 * a, 2 * b),
            child(Up, 2 * a + 1, 2 * b),
            child(Up, 2 * a, 2 * b),
            child(Up, 2 * a, 2 * b + 1),
        ],
        Down => [
            child(Up, 2 * a + 1, 2 * b + 1),
            child(Down, 2 * a, 2 * b + 1),
            child(Down, 2 * a + 1, 2 * b),
            child(Down, 2 * a + 1, 2 * b + 1),
        ],
    }
}

/// The whole octant, the one cell that level 0 has there.
pub fn whole(octant: i64) -> Place {
    Place { octant, kind: Up, row: 0, col: 0 }
}

/// Whether the octant has such a cell at this level.
pub fn exists(level: u32, place: Place) -> bool {
    let last = match place.kind {
        Up => rows(level) - 1,
        Down => rows(level) - 2,
    };
    place.row >= 0 && place.col >= 0 && place.row + place.col <= last
}

/// The place of a cell number: the digits are taken from the first to the last.
pub fn place_of(level: u32, number: u32) -> Place {
    let mut place = whole((u64::from(number) / 4u64.pow(level)) as i64);
    for digit in (0..level).map(|i| number / 4u32.pow(level - 1 - i) % 4) {
        place = children(place)[digit as usize];
    }
    place
}

/// The number of a place: its parents are looked up one after the other, last digit first.
pub fn number_of(level: u32, place: Place) -> u32 {
    let mut number = 0;
    let mut weight = 1;
    let mut here = place;
    for _ in 0..level {
        let (parent, digit) = parent_of(here);
        number += digit * weight;
        weight *= 4;
        here = parent;
    }
    number + place.octant as u32 * weight
}

/// The parent, with the digit of this child: the one of the two cells of half the row and half
/// the column that has it among its children.
fn parent_of(child: Place) -> (Place, u32) {
    for kind in [Up, Down] {
        let parent = Place { kind, row: child.row / 2, col: child.col / 2, ..child };
        if let Some(digit) = children(parent).iter().position(|&c| c == child) {
            return (parent, digit as u32);
        }
    }
    unreachable!("every cell below level 0 has a parent")
}

/// The place of a number, as a call that tests it.
pub fn place(level: u32, number: u32) -> Answer<Place> {
    check_level(level, MAX_CELL_LEVEL)?;
    check_cell(level, number)?;
    Ok(place_of(level, number))
}

/// The number of a place, as a call that tests it.
pub fn number(level: u32, octant: u32, kind: Kind, row: u32, col: u32) -> Answer<u32> {
    check_level(level, MAX_CELL_LEVEL)?;
    let (octant, row, col) = (i64::from(octant), i64::from(row), i64::from(col));
    let place = Place { octant, kind, row, col };
    refuse(CELL, octant > 7 || !exists(level, place))?;
    Ok(number_of(level, place))
}

/// Refusal 1, with the bound of cells or of masks.
pub fn check_level(level: u32, bound: u32) -> Answer<()> {
    refuse(LEVEL, level > bound)
}

/// Refusal 4. The level was tested before.
pub fn check_cell(level: u32, number: u32) -> Answer<()> {
    refuse(CELL, u64::from(number) >= cells_of(level))
}
