//! The numbers of refused calls (docs/RULES.md, 9).
//! A call tests for them in rising order, so that the lowest that applies is given; the stored
//! border has its own order, written in its module.

/// The level is above its bound.
pub const LEVEL: u32 = 1;
/// The latitude is outside its range.
pub const LATITUDE: u32 = 2;
/// The longitude is outside its range.
pub const LONGITUDE: u32 = 3;
/// The cell number is not below 8 × 4^k, or no cell of the level has that place.
pub const CELL: u32 = 4;
/// A slice is not of its exact length; for borders it is too short, or there are no cells.
pub const LENGTH: u32 = 5;
/// The rings are above 64, or the days above 30.
pub const COUNT: u32 = 6;
/// There is no such step: the code is above 7 or absent there, or no code joins the two cells.
pub const STEP: u32 = 7;
/// The outside cell is marked.
pub const OUTSIDE_MARKED: u32 = 8;
/// There are more than 4,096 codes.
pub const TOO_MANY_CODES: u32 = 9;
/// The bytes end early.
pub const ENDS_EARLY: u32 = 10;
/// A stored number is not in its form.
pub const NUMBER_FORM: u32 = 11;
/// Pad bits are not zero, or bytes are left over.
pub const LEFT_OVER: u32 = 12;

/// An answer, or the number of the refusal.
pub type Answer<T> = Result<T, u32>;

/// Refuses by `number` when the fault is there.
pub fn refuse(number: u32, fault: bool) -> Answer<()> {
    if fault {
        Err(number)
    } else {
        Ok(())
    }
}
