//! What holds of all cells of a level: the sources' digit rules, the differences of neighbours'
//! numbers, and how many cells a cell touches.

use model::cells::{cells_of, MAX_MASK_LEVEL};
use model::digits;
use model::steps::{direct, step};
use model::touching::Level;

use super::Said;
use crate::shown::Cells;
use crate::words::{Read, Words};

/// A level whose cells are all listed.
fn listed_level(words: &mut Words) -> Read<u32> {
    match words.number("LEVEL")? {
        level if level > MAX_MASK_LEVEL => Err(format!("LEVEL is above {MAX_MASK_LEVEL}")),
        level => Ok(level),
    }
}

pub fn rule_call(words: &mut Words, _: Cells) -> Read<Said> {
    let (level, code) = (listed_level(words)?, words.code()?);
    if !digits::CODES.contains(&code) {
        return Err("the sources give no digit rule for this code".into());
    }
    let all = cells_of(level) as u32;
    let agrees = |&cell: &u32| step(level, cell, code).ok() == digits::step(level, cell, code);
    Ok(Ok(format!("{} of {all}", (0..all).filter(agrees).count())))
}

pub fn distance_call(words: &mut Words, _: Cells) -> Read<Said> {
    let level = listed_level(words)?;
    let octant = 4u32.pow(level);
    let pairs = (0..octant).flat_map(|cell| direct(level, cell).map(|to| (cell, to)));
    let inside = pairs.filter(|&(_, to)| to < octant);
    let (sum, steps) = inside.fold((0u64, 0u64), |(sum, steps), (cell, to)| {
        (sum + u64::from(cell.abs_diff(to)), steps + 1)
    });
    Ok(Ok(format!("{sum} over {steps} steps, average {}", sum / steps.max(1))))
}

pub fn tally_call(words: &mut Words, _: Cells) -> Read<Said> {
    let (level, number) = (listed_level(words)?, words.number("NUMBER")? as usize);
    let touching = &Level::of(level).touching;
    Ok(Ok(touching.iter().filter(|list| list.len() == number).count().to_string()))
}
