//! Stored borders.

use model::borders;

use super::Said;
use crate::shown::{self, Cells};
use crate::words::{bytes, cells, Read, Words};

pub fn read_call(words: &mut Words, shown: Cells) -> Read<Said> {
    let room = words.number("ROOM")? as usize;
    let stored = bytes("BYTES", words.rest())?;
    Ok(borders::read(&stored, room)
        .map(|(level, cells)| format!("level {level}: {}", shown.list(level, &cells))))
}

pub fn write_call(words: &mut Words, _: Cells) -> Read<Said> {
    let (room, level) = (words.number("ROOM")? as usize, words.number("LEVEL")?);
    let cells = cells(words.rest())?;
    Ok(borders::write(level, &cells, room).map(shown::words))
}
