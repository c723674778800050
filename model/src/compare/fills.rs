//! Filling, with borders of many kinds and the outside cell in every part.

use super::mask_calls::fill;
use super::shapes;
use crate::tally::Tally;
use model::cells::cells_of;
use model::masks::{marks, mask_bytes, mask_of};
use model::random::Random;
use model::touching::Level;

/// So many borders of each level, from 0.
const BORDERS: [u32; 8] = [256, 600, 500, 400, 300, 150, 60, 8];
/// Levels of which every cell is taken as the outside cell.
const EVERY_OUTSIDE: u32 = 1;

/// A closed border, a closed one with a gap, several, a maze, an open one, or any shape.
fn some_border(random: &mut Random, level: u32) -> Vec<u8> {
    let radius = 1 + random.below(1 << level) as u32;
    let marks = match random.below(7) {
        0 => shapes::ring(level, random.cell(level), radius),
        1 => {
            let mut marks = shapes::ring(level, random.cell(level), radius);
            let marked: Vec<usize> = (0..marks.len()).filter(|&c| marks[c]).collect();
            if !marked.is_empty() {
                marks[random.pick(&marked)] = false;
            }
            marks
        }
        2 => {
            let one = shapes::ring(level, random.cell(level), radius);
            let other = shapes::ring(level, random.cell(level), radius / 2 + 1);
            one.iter().zip(other).map(|(&a, b)| a || b).collect()
        }
        3 => {
            let part = 12 + random.below(30);
            shapes::scattered(random, level, part)
        }
        4 => {
            let steps = random.below(40 << level);
            shapes::walk(random, level, steps)
        }
        5 => shapes::row(random, level),
        _ => return shapes::any(random, level),
    };
    mask_of(&marks)
}

/// One cell of each part into which the border cuts the other cells.
fn parts(level: u32, border: &[u8]) -> Vec<u32> {
    let mut seen = marks(border);
    let mut parts = Vec::new();
    for cell in 0..seen.len() as u32 {
        if !seen[cell as usize] {
            parts.push(cell);
        }
        let mut found = vec![cell];
        while let Some(next) = found.pop() {
            if !seen[next as usize] {
                seen[next as usize] = true;
                found.extend(Level::of(level).direct[next as usize]);
            }
        }
    }
    parts
}

pub fn fills(tally: &mut Tally, random: &mut Random, level: u32) {
    for number in 0..BORDERS[level as usize] {
        // Level 0 has 256 borders: all of them are tried.
        let border = if level == 0 { vec![number as u8] } else { some_border(random, level) };
        let out = random.bytes(mask_bytes(level));
        let mut outside: Vec<u32> = (0..cells_of(level) as u32).collect();
        if level > EVERY_OUTSIDE {
            // Any cells, marked ones too, and a cell of some of the parts.
            let parts = parts(level, &border);
            outside = vec![random.cell(level), random.cell(level)];
            outside.extend(parts.first());
            outside.extend(parts.last());
            outside.extend((0..4).filter(|_| !parts.is_empty()).map(|_| random.pick(&parts)));
        }
        for outside in outside {
            fill(tally, level, &border, outside, &out);
        }
    }
}

/// Level 8: a closed border seen from both sides, a maze, and a border that is all over.
pub fn full_size(tally: &mut Tally, random: &mut Random) {
    let level = 8;
    let middle = random.cell(level);
    let ring = mask_of(&shapes::ring(level, middle, 90));
    let maze = mask_of(&shapes::scattered(random, level, 20));
    let out = random.bytes(mask_bytes(level));
    for border in [&ring, &maze] {
        for outside in [middle, random.cell(level), random.cell(level)] {
            fill(tally, level, border, outside, &out);
        }
    }
    fill(tally, level, &vec![255; mask_bytes(level)], middle, &out);
    fill(tally, level, &vec![0; mask_bytes(level)], middle, &out);
}
