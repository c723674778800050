//! What the two programs print (docs/RULES.md, 10).

use crate::borders::{self, MAX_CODES};
use crate::masks;
use crate::refusals::{Answer, LENGTH};

/// The level of the ring counter's masks.
const RING_LEVEL: u32 = 5;

/// The cell lister: `level K` and one cell number a line.
pub fn cell_lister(input: &[u8]) -> String {
    // The program's own slice holds the longest border.
    let listed = borders::read(input, MAX_CODES + 1).map(|(level, cells)| {
        let lines: String = cells.iter().map(|cell| format!("{cell}\n")).collect();
        format!("level {level}\n{lines}")
    });
    or_refused(listed)
}

/// The ring counter: marked cells before and after growing.
pub fn ring_counter(input: &[u8]) -> String {
    or_refused(counts(input).map(|(before, after)| format!("{before} {after}\n")))
}

fn counts(input: &[u8]) -> Answer<(u32, u32)> {
    let (rings, mask) = input.split_first().ok_or(LENGTH)?;
    let length = mask.len();
    let grown = masks::grow(RING_LEVEL, u32::from(*rings), mask, length, length)?;
    Ok((masks::count(RING_LEVEL, mask)?, masks::count(RING_LEVEL, &grown)?))
}

fn or_refused(printed: Answer<String>) -> String {
    printed.unwrap_or_else(|number| format!("refused {number}\n"))
}
