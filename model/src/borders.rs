//! The stored border (docs/RULES.md, 8; the order of its refusals is in section 9). The codes are
//! taken as one list of bits.

use crate::cells::{check_cell, check_level, MAX_CELL_LEVEL};
use crate::refusals::{refuse, Answer, ENDS_EARLY, LEFT_OVER, LENGTH, NUMBER_FORM, TOO_MANY_CODES};
use crate::steps::{code, step};

/// The most codes of a border.
pub const MAX_CODES: usize = 4096;
/// The most bytes of a number.
const MAX_GROUPS: usize = 5;

/// Takes one number from the front of the bytes.
fn take_number(bytes: &mut &[u8]) -> Answer<u32> {
    let more = bytes.iter().take_while(|&&byte| byte >= 128).count();
    refuse(NUMBER_FORM, more >= MAX_GROUPS)?;
    refuse(ENDS_EARLY, more == bytes.len())?;
    let (groups, rest) = bytes.split_at(more + 1);
    // Shortest form: a last group of zero adds nothing, unless it is the only one.
    refuse(NUMBER_FORM, more > 0 && groups[more] == 0)?;
    let value = groups.iter().rev().fold(0u64, |sum, &byte| sum * 128 + u64::from(byte % 128));
    refuse(NUMBER_FORM, value >= 1 << 32)?;
    *bytes = rest;
    Ok(value as u32)
}

/// A number's groups of seven bits, low group first, the high bit set when another follows.
pub fn number_bytes(value: u32) -> Vec<u8> {
    let mut groups = vec![(value % 128) as u8];
    let mut rest = value / 128;
    while rest > 0 {
        *groups.last_mut().expect("there is a group") += 128;
        groups.push((rest % 128) as u8);
        rest /= 128;
    }
    groups
}

/// The bits of bytes, low bits first.
fn bits_of(bytes: &[u8]) -> Vec<bool> {
    bytes.iter().flat_map(|&byte| (0..8).map(move |i| byte & (1 << i) != 0)).collect()
}

/// The number that bits make, low bits first.
fn value_of(bits: &[bool]) -> u32 {
    bits.iter().rev().fold(0, |sum, &bit| sum * 2 + u32::from(bit))
}

/// Codes packed to bytes: three bits each, the last byte padded with zeros.
pub fn code_bytes(codes: &[u32]) -> Vec<u8> {
    let mut bits: Vec<bool> =
        codes.iter().flat_map(|&code| (0..3).map(move |i| code & (1 << i) != 0)).collect();
    while !bits.len().is_multiple_of(8) {
        bits.push(false);
    }
    bits.chunks(8).map(|byte| value_of(byte) as u8).collect()
}

/// The reader: level and cells of a stored border, for a slice with `room` places.
pub fn read(bytes: &[u8], room: usize) -> Answer<(u32, Vec<u32>)> {
    let mut rest = bytes;
    let level = take_number(&mut rest)?;
    check_level(level, MAX_CELL_LEVEL)?;
    let start = take_number(&mut rest)?;
    check_cell(level, start)?;
    let count = take_number(&mut rest)? as usize;
    refuse(TOO_MANY_CODES, count > MAX_CODES)?;

    let bits = bits_of(rest);
    refuse(ENDS_EARLY, bits.len() < 3 * count)?;
    let (codes, pad) = bits.split_at(3 * count);
    refuse(LEFT_OVER, pad.len() >= 8 || pad.contains(&true))?;
    refuse(LENGTH, room < count + 1)?;
    let mut cells = vec![start];
    for bits in codes.chunks(3) {
        cells.push(step(level, cells[cells.len() - 1], value_of(bits))?);
    }
    Ok((level, cells))
}

/// The code from each cell to the next.
pub fn codes_between(level: u32, cells: &[u32]) -> impl Iterator<Item = Answer<u32>> + '_ {
    cells.windows(2).map(move |pair| code(level, pair[0], pair[1]))
}

/// The writer: the bytes of a border, for a slice with `room` places.
pub fn write(level: u32, cells: &[u32], room: usize) -> Answer<Vec<u8>> {
    check_level(level, MAX_CELL_LEVEL)?;
    refuse(LENGTH, cells.is_empty())?;
    refuse(TOO_MANY_CODES, cells.len() - 1 > MAX_CODES)?;
    for &cell in cells {
        check_cell(level, cell)?;
    }
    let codes = codes_between(level, cells).collect::<Answer<Vec<u32>>>()?;
    let mut bytes = number_bytes(level);
    bytes.extend(number_bytes(cells[0]));
    bytes.extend(number_bytes(codes.len() as u32));
    bytes.extend(code_bytes(&codes));
    refuse(LENGTH, bytes.len() > room)?;
    Ok(bytes)
}
