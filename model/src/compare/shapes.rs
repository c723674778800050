//! Masks of many shapes.

use model::cells::{cells_of, place_of};
use model::masks::{distances, mask_bytes, mask_of};
use model::random::Random;
use model::touching::Level;

fn no_marks(level: u32) -> Vec<bool> {
    vec![false; cells_of(level) as usize]
}

/// The distances from one cell, as far as `most`.
fn distances_from(level: u32, cell: u32, most: u32) -> Vec<Option<u32>> {
    let mut start = no_marks(level);
    start[cell as usize] = true;
    distances(level, &start, most)
}

/// All cells at most `radius` touching steps from a cell.
pub fn disc(level: u32, cell: u32, radius: u32) -> Vec<bool> {
    distances_from(level, cell, radius).iter().map(Option::is_some).collect()
}

/// The cells exactly `radius` touching steps from a cell: a closed border.
pub fn ring(level: u32, cell: u32, radius: u32) -> Vec<bool> {
    distances_from(level, cell, radius).iter().map(|&d| d == Some(radius)).collect()
}

/// Each cell marked in `part` of 64 cases.
pub fn scattered(random: &mut Random, level: u32, part: u64) -> Vec<bool> {
    (0..cells_of(level)).map(|_| random.chance(part, 64)).collect()
}

/// A few cells.
pub fn few(random: &mut Random, level: u32) -> Vec<bool> {
    let mut marks = no_marks(level);
    for _ in 0..=random.below(4) {
        marks[random.cell(level) as usize] = true;
    }
    marks
}

/// The way of a walk by direct steps: an open border, or one that crosses itself.
pub fn walk(random: &mut Random, level: u32, steps: u64) -> Vec<bool> {
    let mut marks = no_marks(level);
    let mut cell = random.cell(level);
    for _ in 0..steps {
        marks[cell as usize] = true;
        cell = random.pick(&Level::of(level).direct[cell as usize]);
    }
    marks
}

/// All cells of a row, in all octants or in one hemisphere: it goes round the globe.
pub fn row(random: &mut Random, level: u32) -> Vec<bool> {
    let chosen = random.below(1 << level) as i64;
    let hemispheres = random.below(3);
    let in_row = |cell: u64| {
        let place = place_of(level, cell as u32);
        let here = [true, place.octant < 4, place.octant >= 4][hemispheres as usize];
        here && place.row == chosen
    };
    (0..cells_of(level)).map(in_row).collect()
}

/// One large triangle: an octant or a part of one.
pub fn triangle(random: &mut Random, level: u32) -> Vec<bool> {
    let size = 4u64.pow(random.below(u64::from(level) + 1) as u32);
    let chosen = random.below(cells_of(level) / size);
    (0..cells_of(level)).map(|cell| cell / size == chosen).collect()
}

/// A mask of any shape, or its opposite.
pub fn any(random: &mut Random, level: u32) -> Vec<u8> {
    let marks = match random.below(8) {
        0 => few(random, level),
        1 => {
            let part = random.pick(&[1, 8, 32, 56, 63]);
            scattered(random, level, part)
        }
        2 => {
            let radius = random.below(2 << level) as u32;
            disc(level, random.cell(level), radius)
        }
        3 => {
            let radius = random.below(2 << level) as u32;
            ring(level, random.cell(level), radius)
        }
        4 => {
            let steps = random.below(200);
            walk(random, level, steps)
        }
        5 => row(random, level),
        6 => triangle(random, level),
        _ if random.chance(1, 8) => no_marks(level),
        _ => few(random, level),
    };
    let mask = mask_of(&marks);
    assert_eq!(mask.len(), mask_bytes(level));
    if random.chance(1, 3) {
        return mask.iter().map(|byte| !byte).collect();
    }
    mask
}
