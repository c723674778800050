//! Triangular cells of the globe, masks of cloud on them, and charts of sea temperature in degrees
//! Celsius, where every temperature has an age: safe functions over the proved library
//! `libticklocust.a`.
//!
//! Each function makes one call of `include/ticklocust.h` and has its name there. It returns its
//! result or a [`Refusal`], whose number is that of the table in docs/RULES.md, 9; a refused call
//! leaves every slice as it was. Nothing is allocated and no state is kept between calls, so several
//! threads may call at once, each with its own slices.
//!
//! - Places: [`cell_at`] and [`centre`], with [`Latitude`] and [`Longitude`] as separate types;
//!   [`step`], [`code`] and [`touching`]. The rules: docs/RULES.md, 1 to 5.
//! - Masks, byte slices with one bit per cell: [`grow`], [`shrink`], [`join`], [`count`],
//!   [`within`] and [`fill`]. The rules: docs/RULES.md, 6.
//! - Charts, a slice of temperatures and one of ages: [`reading`] and [`day`]. The rules:
//!   docs/RULES.md, 7.
//! - Borders in their stored form: [`border_read`] and [`border_write`]. The rules: docs/RULES.md, 8.
//!
//! ```
//! use ticklocust::{cell_at, centre, Latitude, Longitude};
//!
//! let cell = cell_at(1, Latitude(22_500_000), Longitude(30_000_000))?;
//! assert_eq!(cell, 0);
//! assert_eq!(centre(1, cell)?, (Latitude(30_000_000), Longitude(45_000_000)));
//! # Ok::<(), ticklocust::Refusal>(())
//! ```
//!
//! # Stack
//!
//! [`fill`] needs 330 KiB of stack, [`grow`] and [`shrink`] need 250 KiB each, [`border_read`]
//! 20 KiB, [`border_write`] 8 KiB and every other call 4 KiB. A thread of the standard library has
//! 2 MiB. A thread with less stack than a call needs crashes: no refusal can report it. Frames are
//! probed page by page, so an overflow hits the guard page and writes nothing beyond it.
//!
//! # Not covered by the proofs
//!
//! - This crate: it is tested. Its unsafe code, one file, passes true lengths and pointers that
//!   don't overlap.
//! - The bits of a NaN. The proofs know a single NaN; that a refused call leaves the bits of every
//!   NaN as they were is tested.
//! - Other floating-point modes. If flush-to-zero or denormals-are-zero is set, as C code built
//!   with `-ffast-math` may do, [`day`] can give 0.0 where the coldest or the warmest temperature
//!   is a subnormal number. Call with the default mode.
//! - The stack: its use is measured.

#![deny(missing_docs)]
#![deny(unsafe_code)]

mod borders;
mod charts;
mod masks;
mod places;
mod raw;
mod refusal;

pub use borders::{border_read, border_write, Border};
pub use charts::{day, reading, Reading, Summary};
pub use masks::{count, fill, grow, join, shrink, within, Within};
pub use places::{cell_at, centre, code, step, touching, Latitude, Longitude, Touching, CODES};
pub use refusal::Refusal;

/// The highest level of cells and borders.
pub const MAX_CELL_LEVEL: u32 = 14;
/// The highest level of masks and charts.
pub const MAX_MASK_LEVEL: u32 = 8;
/// The most rings by which a mask is grown or shrunk.
pub const MAX_RINGS: u32 = 64;
/// The most days for which a temperature is carried.
pub const MAX_DAYS: u32 = 30;
/// The most codes in a border.
pub const MAX_CODES: usize = 4096;
/// The most cells in a border, one more than its codes: a length for [`border_read`]'s slice.
pub const MAX_BORDER_CELLS: usize = MAX_CODES + 1;
/// The most bytes in a stored border: a length for [`border_write`]'s slice.
pub const MAX_BORDER_BYTES: usize = 1544;

/// The number of bytes in a mask of this level, 4^level; `None` above level 8.
///
/// ```
/// assert_eq!(ticklocust::mask_len(5), Some(1024));
/// assert_eq!(ticklocust::mask_len(9), None);
/// ```
#[must_use]
pub fn mask_len(level: u32) -> Option<usize> {
    (level <= MAX_MASK_LEVEL).then(|| 1 << (2 * level))
}

/// The number of cells in a chart of this level, 8 × 4^level; `None` above level 8. A chart has one
/// temperature and one age for each cell.
///
/// ```
/// assert_eq!(ticklocust::chart_len(0), Some(8));
/// assert_eq!(ticklocust::chart_len(9), None);
/// ```
#[must_use]
pub fn chart_len(level: u32) -> Option<usize> {
    mask_len(level).map(|bytes| 8 * bytes)
}
