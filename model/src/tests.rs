//! Tests of the model: the worked examples of docs/RULES.md, the published examples, the refused
//! calls, and facts that hold of every cell.

mod laws;
mod refused;
mod sources;
mod worked;

/// The level and number of an address: the octant's digit and then one digit a level.
fn address(digits: &str) -> (u32, u32) {
    let number = digits.bytes().fold(0, |sum, digit| sum * 4 + u32::from(digit - b'0'));
    (digits.len() as u32 - 1, number)
}
