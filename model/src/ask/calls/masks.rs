//! Masks, which are given by their marked cells.

use model::cells::MAX_MASK_LEVEL;
use model::fills::fill;
use model::masks::{self, WITHIN};
use model::refusals::Answer;

use super::Said;
use crate::shown::Cells;
use crate::words::{mask, Read, Words};

pub fn mask_call(words: &mut Words, _: Cells) -> Read<Said> {
    let (level, bytes) = (words.number("LEVEL")?, words.number("BYTES")? as usize);
    Ok(masks::check_masks(level, &[bytes]).map(|()| "yes".into()))
}

type Rings = fn(u32, u32, &[u8], usize, usize) -> Answer<Vec<u8>>;

pub fn grow_call(words: &mut Words, cells: Cells) -> Read<Said> {
    rings_call(masks::grow, words, cells)
}

pub fn shrink_call(words: &mut Words, cells: Cells) -> Read<Said> {
    rings_call(masks::shrink, words, cells)
}

fn rings_call(call: Rings, words: &mut Words, cells: Cells) -> Read<Said> {
    let (level, rings) = (words.number("LEVEL")?, words.number("RINGS")?);
    let mask = mask(level, words.rest())?;
    let out = call(level, rings, &mask, length(level), length(level));
    Ok(out.map(|mask| cells.mask(level, &mask)))
}

pub fn count_call(words: &mut Words, _: Cells) -> Read<Said> {
    let level = words.number("LEVEL")?;
    Ok(masks::count(level, &mask(level, words.rest())?).map(|count| count.to_string()))
}

pub fn join_call(words: &mut Words, cells: Cells) -> Read<Said> {
    let level = words.number("LEVEL")?;
    let [a, b] = words.lists()?;
    let joined = masks::join(level, &mask(level, a)?, &mask(level, b)?, length(level));
    Ok(joined.map(|mask| cells.mask(level, &mask)))
}

pub fn within_call(words: &mut Words, cells: Cells) -> Read<Said> {
    let level = words.number("LEVEL")?;
    let [a, b] = words.lists()?;
    let lacking = masks::within(level, &mask(level, a)?, &mask(level, b)?);
    Ok(lacking.map(|cell| match cell {
        WITHIN => "yes".into(),
        cell => format!("lacks {}", cells.one(level, cell)),
    }))
}

pub fn fill_call(words: &mut Words, cells: Cells) -> Read<Said> {
    let (level, filled) = filled(words)?;
    Ok(filled.map(|mask| cells.mask(level, &mask)))
}

pub fn filled_call(words: &mut Words, _: Cells) -> Read<Said> {
    let (level, filled) = filled(words)?;
    Ok(filled.and_then(|mask| masks::count(level, &mask)).map(|count| count.to_string()))
}

fn filled(words: &mut Words) -> Read<(u32, Answer<Vec<u8>>)> {
    let (level, outside) = (words.number("LEVEL")?, words.cell()?);
    let border = mask(level, words.rest())?;
    Ok((level, fill(level, &border, outside, length(level))))
}

/// The length of a slice to write: right at every level that has masks.
fn length(level: u32) -> usize {
    masks::mask_bytes(level.min(MAX_MASK_LEVEL))
}
