//! The rules of docs/RULES.md as a second program, slow and plain, to compare the proved library
//! with. One module for each section. Every call gives its answer or the number of its
//! refusal; what it writes to slices it gives as new lists.

pub mod borders;
pub mod cells;
pub mod charts;
pub mod digits;
pub mod fills;
pub mod masks;
pub mod positions;
pub mod programs;
pub mod random;
pub mod refusals;
pub mod steps;
pub mod touching;

#[cfg(test)]
mod tests;
