//! Cells, positions, steps and touching.

use model::borders::codes_between;
use model::cells::{number, place};
use model::positions::{cell_at, centre};
use model::refusals::Answer;
use model::steps::step;
use model::touching::{touch, touching, PLACES};

use super::Said;
use crate::shown::{self, Cells};
use crate::words::{self, Read, Words};

pub fn place_call(words: &mut Words, _: Cells) -> Read<Said> {
    let (level, cell) = (words.number("LEVEL")?, words.cell()?);
    Ok(place(level, cell).map(shown::place))
}

pub fn number_call(words: &mut Words, cells: Cells) -> Read<Said> {
    let (level, octant, kind) = (words.number("LEVEL")?, words.number("OCTANT")?, words.kind()?);
    let (row, col) = (words.number("ROW")?, words.number("COLUMN")?);
    Ok(number(level, octant, kind, row, col).map(|cell| cells.one(level, cell)))
}

/// X and Y of source 003: Y = 3a + s, and 3X = 2(3b + s) + Y.
pub fn centroid_call(words: &mut Words, _: Cells) -> Read<Said> {
    let (level, cell) = (words.number("LEVEL")?, words.cell()?);
    Ok(place(level, cell).map(|place| {
        let y = 3 * place.row + place.kind.thirds();
        let x = (2 * (3 * place.col + place.kind.thirds()) + y) / 3;
        format!("X {x} Y {y}")
    }))
}

pub fn cell_call(words: &mut Words, cells: Cells) -> Read<Said> {
    let (level, latitude) = (words.number("LEVEL")?, words.angle("LATITUDE")?);
    let longitude = words.angle("LONGITUDE")?;
    Ok(cell_at(level, latitude, longitude).map(|cell| cells.one(level, cell)))
}

pub fn centre_call(words: &mut Words, _: Cells) -> Read<Said> {
    let (level, cell) = (words.number("LEVEL")?, words.cell()?);
    Ok(centre(level, cell).map(|(latitude, longitude)| format!("{latitude} {longitude}")))
}

pub fn near_call(words: &mut Words, _: Cells) -> Read<Said> {
    let (level, latitude) = (words.number("LEVEL")?, words.angle("LATITUDE")?);
    let longitude = words.angle("LONGITUDE")?;
    let list = words::cells(words.rest())?;
    Ok(cell_at(level, latitude, longitude).map(|cell| {
        let touches = |&other: &u32| touch(level, cell, other) == Ok(true);
        match () {
            () if list.contains(&cell) => "in".into(),
            () if list.iter().any(touches) => "touches".into(),
            () => "apart".into(),
        }
    }))
}

pub fn step_call(words: &mut Words, cells: Cells) -> Read<Said> {
    let (level, cell, code) = (words.number("LEVEL")?, words.cell()?, words.code()?);
    Ok(step(level, cell, code).map(|to| cells.one(level, to)))
}

pub fn code_call(words: &mut Words, _: Cells) -> Read<Said> {
    let (level, from, to) = (words.number("LEVEL")?, words.cell()?, words.cell()?);
    Ok(model::steps::code(level, from, to).map(shown::code))
}

pub fn codes_call(words: &mut Words, _: Cells) -> Read<Said> {
    let level = words.number("LEVEL")?;
    let cells = words::cells(words.rest())?;
    if cells.len() < 2 {
        return Err("two cells are needed".into());
    }
    let codes = codes_between(level, &cells).map(|code| or_refused(code.map(shown::code)));
    Ok(Ok(shown::words(codes)))
}

/// The path ends where a step is refused.
pub fn path_call(words: &mut Words, cells: Cells) -> Read<Said> {
    let (level, mut here) = (words.number("LEVEL")?, words.cell()?);
    let codes = words.rest().iter().map(|word| words::code(word)).collect::<Read<Vec<u32>>>()?;
    if codes.is_empty() {
        return Err("CODES are missing".into());
    }
    let mut path = Vec::new();
    for code in codes {
        let to = step(level, here, code);
        path.push(or_refused(to.map(|cell| cells.one(level, cell))));
        match to {
            Ok(cell) => here = cell,
            Err(_) => break,
        }
    }
    Ok(Ok(shown::words(path)))
}

pub fn touch_call(words: &mut Words, _: Cells) -> Read<Said> {
    let (level, a, b) = (words.number("LEVEL")?, words.cell()?, words.cell()?);
    Ok(touch(level, a, b).map(|touch| if touch { "touch" } else { "apart" }.into()))
}

pub fn touching_call(words: &mut Words, cells: Cells) -> Read<Said> {
    let (level, cell) = (words.number("LEVEL")?, words.cell()?);
    let places = if words.is_empty() { PLACES } else { words.number("PLACES")? as usize };
    let list = touching(level, cell, places);
    Ok(list.map(|(list, count)| cells.list(level, &list[..count as usize])))
}

fn or_refused(answer: Answer<String>) -> String {
    answer.unwrap_or_else(shown::refused)
}
