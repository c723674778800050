//! The calls by name, with their words.

mod borders;
mod cells;
mod charts;
mod levels;
mod masks;

use model::refusals::Answer;

use crate::shown::{self, Cells};
use crate::words::{Read, Words};

/// What a call answers, or the number of its refusal.
pub type Said = Answer<String>;
type Run = fn(&mut Words, Cells) -> Read<Said>;

pub struct Call {
    pub name: &'static str,
    pub words: &'static str,
    pub gives: &'static str,
    run: Run,
}

const fn call(name: &'static str, words: &'static str, gives: &'static str, run: Run) -> Call {
    Call { name, words, gives, run }
}

/// Sections of docs/RULES.md: 1 to 5 for cells, 6 for masks, 7 for charts, 8 for borders.
pub const CALLS: [Call; 27] = [
    call("cell", "LEVEL LATITUDE LONGITUDE", "the cell at a position", cells::cell_call),
    call("centre", "LEVEL CELL", "latitude and longitude of its centre", cells::centre_call),
    call("place", "LEVEL CELL", "octant, up or down, row and column", cells::place_call),
    call("number", "LEVEL OCTANT up|down ROW COLUMN", "the cell there", cells::number_call),
    call("step", "LEVEL CELL CODE", "the cell that a code leads to", cells::step_call),
    call("path", "LEVEL CELL CODES", "the cells of steps in a row", cells::path_call),
    call("code", "LEVEL CELL CELL", "the code between two cells", cells::code_call),
    call("codes", "LEVEL CELLS", "the codes from each cell to the next", cells::codes_call),
    call("touch", "LEVEL CELL CELL", "touch or apart", cells::touch_call),
    call("touching", "LEVEL CELL [PLACES]", "the cells that touch it", cells::touching_call),
    call("near", "LEVEL LATITUDE LONGITUDE CELLS", "in, touches or apart", cells::near_call),
    call("mask", "LEVEL BYTES", "whether a mask has that length", masks::mask_call),
    call("grow", "LEVEL RINGS CELLS", "the mask grown", masks::grow_call),
    call("shrink", "LEVEL RINGS CELLS", "the mask shrunk", masks::shrink_call),
    call("join", "LEVEL CELLS / CELLS", "the cells of either mask", masks::join_call),
    call("count", "LEVEL CELLS", "the number of marked cells", masks::count_call),
    call("within", "LEVEL CELLS / CELLS", "yes, or the lowest cell lacking", masks::within_call),
    call("fill", "LEVEL OUTSIDE CELLS", "the border filled", masks::fill_call),
    call("filled", "LEVEL OUTSIDE CELLS", "how many cells that are", masks::filled_call),
    call("reading", "LEVEL CELL TEMPERATURES / AGES", "a cell's reading", charts::reading_call),
    call("day", "LEVEL LIMIT NEW / CLOUDED CELLS / TEMPERATURES / AGES", "a day", charts::day_call),
    call("read", "ROOM BYTES", "the border stored in bytes", borders::read_call),
    call("write", "ROOM LEVEL CELLS", "the bytes of a border", borders::write_call),
    call("centroid", "LEVEL CELL", "X and Y of source 003", cells::centroid_call),
    call("rule", "LEVEL CODE", "cells where the sources' digit rules hold", levels::rule_call),
    call("distance", "LEVEL", "differences of neighbours' numbers", levels::distance_call),
    call("tally", "LEVEL NUMBER", "the cells that touch so many", levels::tally_call),
];

/// Answers a call; an error says what can't be read.
pub fn answer(name: &str, words: &[String], cells: Cells) -> Read<String> {
    let unknown = || format!("there is no call '{name}': see model/ask --help");
    let call = CALLS.iter().find(|call| call.name == name).ok_or_else(unknown)?;
    let mut words = Words::new(words);
    let said = (call.run)(&mut words, cells);
    let usage = |reason: String| format!("{reason}\nusage: {name} {}", call.words);
    let said = said.map_err(usage)?;
    if !words.is_empty() {
        return Err(usage("there are too many words".into()));
    }
    Ok(said.unwrap_or_else(shown::refused))
}
