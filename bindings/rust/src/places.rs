//! Positions, cells, the steps between cells, and the cells that touch.

use std::fmt;
use std::ops::Deref;

use crate::{raw, Refusal};

/// A latitude in millionths of a degree, -90,000,000 to 90,000,000; south is negative.
///
/// It is displayed as its number. It is a separate type, so it can't be passed as a longitude:
///
/// ```compile_fail,E0308
/// use ticklocust::{cell_at, Latitude};
///
/// cell_at(1, Latitude(22_500_000), Latitude(30_000_000));
/// ```
#[derive(Clone, Copy, Debug, PartialEq, Eq, Hash, PartialOrd, Ord)]
pub struct Latitude(pub i32);

/// A longitude in millionths of a degree, -180,000,000 to 179,999,999; west is negative.
///
/// It is displayed as its number. It is a separate type, so it can't be passed as a latitude:
///
/// ```compile_fail,E0308
/// use ticklocust::{cell_at, Longitude};
///
/// cell_at(1, Longitude(22_500_000), Longitude(30_000_000));
/// ```
#[derive(Clone, Copy, Debug, PartialEq, Eq, Hash, PartialOrd, Ord)]
pub struct Longitude(pub i32);

impl fmt::Display for Latitude {
    fn fmt(&self, f: &mut fmt::Formatter<'_>) -> fmt::Result {
        self.0.fmt(f)
    }
}

impl fmt::Display for Longitude {
    fn fmt(&self, f: &mut fmt::Formatter<'_>) -> fmt::Result {
        self.0.fmt(f)
    }
}

/// The letters of the codes 0 to 7. `t`, `l`, `r`, `e` and `w` stay within the octant; `T`, `E` and
/// `W` cross its edge.
///
/// ```
/// assert_eq!(ticklocust::CODES[5], 'T');
/// ```
pub const CODES: [char; 8] = ['t', 'l', 'r', 'e', 'w', 'T', 'E', 'W'];

/// The cell at a position. Level 0 to 14.
///
/// # Errors
///
/// Refused by 1, 2, 3.
///
/// ```
/// use ticklocust::{cell_at, Latitude, Longitude, Refusal};
///
/// assert_eq!(cell_at(1, Latitude(22_500_000), Longitude(29_999_999)), Ok(2));
/// assert_eq!(cell_at(14, Latitude(-1), Longitude(0)), Ok(1_252_698_794));
/// assert_eq!(cell_at(1, Latitude(90_000_001), Longitude(0)), Err(Refusal::Latitude));
/// assert_eq!(cell_at(1, Latitude(0), Longitude(180_000_000)), Err(Refusal::Longitude));
/// ```
pub fn cell_at(level: u32, latitude: Latitude, longitude: Longitude) -> Result<u32, Refusal> {
    raw::cell_at(level, latitude.0, longitude.0)
}

/// The centre of a cell. Level 0 to 14. The cell at the centre is the cell.
///
/// # Errors
///
/// Refused by 1, 4.
///
/// ```
/// use ticklocust::{centre, Latitude, Longitude, Refusal};
///
/// assert_eq!(centre(1, 2), Ok((Latitude(15_000_000), Longitude(18_000_000))));
/// assert_eq!(centre(1, 32), Err(Refusal::Cell));
/// ```
pub fn centre(level: u32, cell: u32) -> Result<(Latitude, Longitude), Refusal> {
    raw::centre(level, cell).map(|(latitude, longitude)| (Latitude(latitude), Longitude(longitude)))
}

/// The cell that a code leads to; [`CODES`] has the codes' letters. Level 0 to 14.
///
/// # Errors
///
/// Refused by 1, 4, 7.
///
/// ```
/// use ticklocust::{step, Refusal};
///
/// // T, over the equator, from 02323 to 42323.
/// assert_eq!(step(4, 187, 5), Ok(1211));
/// assert_eq!(step(4, 187, 0), Err(Refusal::Step));
/// ```
pub fn step(level: u32, cell: u32, code: u32) -> Result<u32, Refusal> {
    raw::step(level, cell, code)
}

/// The code that leads from one cell to another. Level 0 to 14.
///
/// # Errors
///
/// Refused by 1, 4 for either cell, 7.
///
/// ```
/// use ticklocust::{code, Refusal};
///
/// assert_eq!(code(4, 187, 1211), Ok(5));
/// assert_eq!(code(4, 187, 187), Err(Refusal::Step));
/// ```
pub fn code(level: u32, from: u32, to: u32) -> Result<u32, Refusal> {
    raw::code(level, from, to)
}

/// The cells that touch a cell, in ascending order: 6, 10 or 12 of them.
#[derive(Clone, Copy, Debug, PartialEq, Eq)]
pub struct Touching {
    cells: [u32; 12],
    count: usize,
}

impl Deref for Touching {
    type Target = [u32];

    fn deref(&self) -> &[u32] {
        &self.cells[..self.count]
    }
}

/// The cells that touch a cell: those that have a point in common with it, also across the
/// meridians between octants, across the equator and around the poles. Level 0 to 14.
///
/// # Errors
///
/// Refused by 1, 4.
///
/// ```
/// use ticklocust::{touching, Refusal};
///
/// let cells = touching(0, 0)?;
/// assert_eq!(cells[..], [1, 2, 3, 4, 5, 7]);
/// assert_eq!(touching(4, 187)?.len(), 12);
/// assert_eq!(touching(0, 8), Err(Refusal::Cell));
/// # Ok::<(), Refusal>(())
/// ```
pub fn touching(level: u32, cell: u32) -> Result<Touching, Refusal> {
    let mut cells = [u32::MAX; 12];
    let count = raw::touching(level, cell, &mut cells)? as usize;
    Ok(Touching { cells, count })
}
