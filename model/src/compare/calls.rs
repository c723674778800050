//! One call each to the cells' part of the library and of the model, compared.

use crate::library::cells as library;
use crate::outcome::{Outcome, Slice};
use crate::tally::{Call, Tally};
use model::{positions, steps, touching as model_touching};

pub fn cell_at(tally: &mut Tally, level: u32, latitude: i32, longitude: i32) {
    let answer = positions::cell_at(level, latitude, longitude).map(|cell| [cell]);
    let model = Outcome::model(answer, Vec::new());
    let library = library::cell_at(level, latitude, longitude);
    let arguments = |call: Call| {
        call.number("level", level).number("latitude", latitude).number("longitude", longitude)
    };
    tally.compare("ticklocust_cell_at", arguments, &model, &library);
}

pub fn centre(tally: &mut Tally, level: u32, cell: u32) {
    let answer = positions::centre(level, cell).map(|(lat, lon)| [lat as u32, lon as u32]);
    let model = Outcome::model(answer, Vec::new());
    let library = library::centre(level, cell);
    let arguments = |call: Call| call.number("level", level).number("cell", cell);
    tally.compare("ticklocust_centre", arguments, &model, &library);
}

/// Gives the cell stepped to, for the caller to go on from.
pub fn step(tally: &mut Tally, level: u32, cell: u32, code: u32) -> Option<u32> {
    let answer = steps::step(level, cell, code);
    let model = Outcome::model(answer.map(|to| [to]), Vec::new());
    let library = library::step(level, cell, code);
    let arguments =
        |call: Call| call.number("level", level).number("cell", cell).number("code", code);
    tally.compare("ticklocust_step", arguments, &model, &library);
    answer.ok()
}

pub fn code(tally: &mut Tally, level: u32, from: u32, to: u32) {
    let answer = steps::code(level, from, to).map(|code| [code]);
    let model = Outcome::model(answer, Vec::new());
    let library = library::code(level, from, to);
    let arguments = |call: Call| call.number("level", level).number("from", from).number("to", to);
    tally.compare("ticklocust_code", arguments, &model, &library);
}

/// Gives the touching cells, for the caller to go on with.
pub fn touching(tally: &mut Tally, level: u32, cell: u32, slice: &[u32]) -> Vec<u32> {
    let (answer, left, list) = match model_touching::touching(level, cell, slice.len()) {
        Ok((places, count)) => (Ok([count]), places.to_vec(), places[..count as usize].to_vec()),
        Err(number) => (Err(number), slice.to_vec(), Vec::new()),
    };
    let model = Outcome::model(answer, vec![Slice::Words(left)]);
    let library = library::touching(level, cell, slice);
    let arguments =
        |call: Call| call.number("level", level).number("cell", cell).words("cells", slice);
    tally.compare("ticklocust_touching", arguments, &model, &library);
    list
}
