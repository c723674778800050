//! Corners and touching (docs/RULES.md, 5).

use std::collections::{BTreeSet, HashMap};
use std::sync::OnceLock;

use crate::cells::{
    cells_of, check_cell, check_level, exists, number_of, place, place_of, rows, Kind, Place,
    MAX_CELL_LEVEL, MAX_MASK_LEVEL,
};
use crate::refusals::{refuse, Answer, LENGTH};
use crate::steps::direct;

/// A list of touching cells has exactly so many places.
pub const PLACES: usize = 12;
/// What an unused place holds.
pub const UNUSED: u32 = 4_294_967_295;

/// A point of three whole numbers.
pub type Point = [i64; 3];

/// The point at (T, R) of an octant.
fn point(level: u32, octant: i64, t: i64, r: i64) -> Point {
    let l = rows(level) - t - r;
    let [x, y] = match octant % 4 {
        0 => [l, r],
        1 => [-r, l],
        2 => [-l, -r],
        _ => [r, -l],
    };
    [x, y, if octant < 4 { t } else { -t }]
}

/// The three corners of a cell.
pub fn corners(level: u32, place: Place) -> [Point; 3] {
    let (a, b) = (place.row, place.col);
    match place.kind {
        Kind::Up => [(a, b), (a + 1, b), (a, b + 1)],
        Kind::Down => [(a + 1, b), (a, b + 1), (a + 1, b + 1)],
    }
    .map(|(t, r)| point(level, place.octant, t, r))
}

/// All cells that have this point as a corner, for levels too high to list: in each octant the
/// few cells about the point's T and R are tried.
fn cells_at(level: u32, at: Point) -> Vec<u32> {
    let t = at[2].abs();
    let near = |middle: i64| [middle - 1, middle];
    let mut found = Vec::new();
    for octant in 0..8 {
        let r = if octant % 2 == 0 { at[1].abs() } else { at[0].abs() };
        for kind in [Kind::Up, Kind::Down] {
            for (row, col) in near(t).into_iter().flat_map(|row| near(r).map(|col| (row, col))) {
                let place = Place { octant, kind, row, col };
                if exists(level, place) && corners(level, place).contains(&at) {
                    found.push(number_of(level, place));
                }
            }
        }
    }
    found
}

/// The cells that touch a cell, rising: all that have one of its points, without itself.
pub fn touching_by_points(level: u32, cell: u32) -> Vec<u32> {
    let points = corners(level, place_of(level, cell));
    let cells: BTreeSet<u32> = points.iter().flat_map(|&p| cells_at(level, p)).collect();
    cells.into_iter().filter(|&c| c != cell).collect()
}

/// Whether two cells touch.
pub fn touch(level: u32, a: u32, b: u32) -> Answer<bool> {
    let (here, there) = (place(level, a)?, place(level, b)?);
    let points = corners(level, there);
    Ok(a != b && corners(level, here).iter().any(|point| points.contains(point)))
}

/// What masks need of one level, worked out once: for each cell the cells that touch it and its
/// three direct neighbours.
pub struct Level {
    pub touching: Vec<Vec<u32>>,
    pub direct: Vec<[u32; 3]>,
}

impl Level {
    /// Goes through all cells once to note which cells have a point, then looks the points up.
    fn new(level: u32) -> Level {
        let cells = 0..u32::try_from(cells_of(level)).expect("mask levels are small");
        let mut at: HashMap<Point, Vec<u32>> = HashMap::new();
        for cell in cells.clone() {
            for point in corners(level, place_of(level, cell)) {
                at.entry(point).or_default().push(cell);
            }
        }
        let touching = cells.clone().map(|cell| {
            let points = corners(level, place_of(level, cell));
            let mut list: Vec<u32> = points.iter().flat_map(|p| at[p].clone()).collect();
            list.sort_unstable();
            list.dedup();
            list.retain(|&other| other != cell);
            list
        });
        let touching = touching.collect();
        let direct = cells.map(|cell| direct(level, cell)).collect();
        Level { touching, direct }
    }

    /// The tables of a level of masks, made at first use.
    pub fn of(level: u32) -> &'static Level {
        static LEVELS: [OnceLock<Level>; 9] = [const { OnceLock::new() }; 9];
        LEVELS[level as usize].get_or_init(|| Level::new(level))
    }
}

/// The list of touching cells in a slice of `places` places, and their count.
pub fn touching(level: u32, cell: u32, places: usize) -> Answer<([u32; PLACES], u32)> {
    check_level(level, MAX_CELL_LEVEL)?;
    check_cell(level, cell)?;
    refuse(LENGTH, places != PLACES)?;
    let mut slice = [UNUSED; PLACES];
    let list = if level <= MAX_MASK_LEVEL {
        Level::of(level).touching[cell as usize].clone()
    } else {
        touching_by_points(level, cell)
    };
    slice[..list.len()].copy_from_slice(&list);
    Ok((slice, list.len() as u32))
}
