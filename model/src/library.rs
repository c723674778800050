//! The library's C interface, made safe to call: every slice is lent as a copy of its own on the
//! heap, of exactly its length, and comes back in the outcome, also the ones that are only read.
//! Answers' places hold UNWRITTEN before a call.

pub mod borders;
pub mod cells;
pub mod charts;
pub mod masks;
