//! Steps and codes (docs/RULES.md, 4). Codes 0 to 7 are t, l, r, e, w, T, E, W.

use crate::cells::{
    check_cell, check_level, exists, number_of, place_of, rows, Kind, Place, MAX_CELL_LEVEL,
};
use crate::refusals::{refuse, Answer, STEP};

pub const CODES: std::ops::Range<u32> = 0..8;

/// East runs 0, 1, 2, 3, 0 and 4, 5, 6, 7, 4.
fn east_of(octant: i64) -> i64 {
    [1, 2, 3, 0, 5, 6, 7, 4][octant as usize]
}

/// The octant from which east leads here.
fn west_of(octant: i64) -> i64 {
    (0..8).find(|&o| east_of(o) == octant).expect("east goes round")
}

/// The same octant of the other hemisphere.
fn opposite(octant: i64) -> i64 {
    (octant + 4) % 8
}

/// Where a code leads from a place, if it leads anywhere.
pub fn target(level: u32, from: Place, code: u32) -> Option<Place> {
    let (a, b) = (from.row, from.col);
    let inside = |kind, row, col| {
        let to = Place { kind, row, col, ..from };
        exists(level, to).then_some(to)
    };
    let across = |edge: bool, octant, col| {
        let to = Place { octant, col, ..from };
        (from.kind == Kind::Up && edge).then_some(to)
    };
    let last = rows(level) - 1;
    match (from.kind, code) {
        (Kind::Up, 0) => inside(Kind::Down, a - 1, b),
        (Kind::Up, 1) => inside(Kind::Down, a, b - 1),
        (Kind::Up, 2) => inside(Kind::Down, a, b),
        (Kind::Down, 0) => inside(Kind::Up, a + 1, b),
        (Kind::Down, 1) => inside(Kind::Up, a, b),
        (Kind::Down, 2) => inside(Kind::Up, a, b + 1),
        (kind, 3) => inside(kind, a, b + 1),
        (kind, 4) => inside(kind, a, b - 1),
        (_, 5) => across(a == 0, opposite(from.octant), b),
        (_, 6) => across(a + b == last, east_of(from.octant), 0),
        (_, 7) => across(b == 0, west_of(from.octant), last - a),
        _ => None,
    }
}

/// The cell that a code leads to.
pub fn step(level: u32, cell: u32, code: u32) -> Answer<u32> {
    check_level(level, MAX_CELL_LEVEL)?;
    check_cell(level, cell)?;
    match target(level, place_of(level, cell), code) {
        Some(place) => Ok(number_of(level, place)),
        None => Err(STEP),
    }
}

/// The code that leads from one cell to another: the codes are tried one after the other.
pub fn code(level: u32, from: u32, to: u32) -> Answer<u32> {
    check_level(level, MAX_CELL_LEVEL)?;
    check_cell(level, from)?;
    check_cell(level, to)?;
    let (from, to) = (place_of(level, from), place_of(level, to));
    let joining = CODES.clone().find(|&code| target(level, from, code) == Some(to));
    refuse(STEP, joining.is_none())?;
    Ok(joining.unwrap_or_default())
}

/// The three direct neighbours of a cell: by t or T, l or W, r or E.
pub fn direct(level: u32, cell: u32) -> [u32; 3] {
    let from = place_of(level, cell);
    [[0, 5], [1, 7], [2, 6]].map(|pair| {
        let places: Vec<Place> = pair.iter().filter_map(|&c| target(level, from, c)).collect();
        assert_eq!(places.len(), 1, "exactly one of the two codes leads somewhere");
        number_of(level, places[0])
    })
}
