//! Borders in their stored form.

use crate::{raw, Refusal};

/// A border that was read: its level and its cells, each one step from the one before.
#[derive(Clone, Copy, Debug, PartialEq, Eq)]
pub struct Border<'a> {
    /// The level of the cells, 0 to 14.
    pub level: u32,
    /// The cells, at least one: the first places of the slice that was passed.
    pub cells: &'a [u32],
}

/// Reads a stored border into the first places of `cells`; the others stay as they were.
/// [`MAX_BORDER_CELLS`](crate::MAX_BORDER_CELLS) places are enough for every border.
///
/// # Errors
///
/// Refused, for the level, by 10 or 11, then 1; for the start cell by 10 or 11, then 4; for the
/// number of codes by 10 or 11, then 9; then by 10, 12, 5, 7.
///
/// ```
/// use ticklocust::{border_read, Refusal};
///
/// let mut cells = [0; 8];
/// let border = border_read(&[0x04, 0x00, 0x02, 0x0B], &mut cells)?;
/// assert_eq!((border.level, border.cells), (4, &[0, 13, 3][..]));
/// assert_eq!(border_read(&[0x04, 0x00, 0x02], &mut cells), Err(Refusal::Short));
/// # Ok::<(), Refusal>(())
/// ```
pub fn border_read<'a>(bytes: &[u8], cells: &'a mut [u32]) -> Result<Border<'a>, Refusal> {
    let (level, count) = raw::border_read(bytes, cells)?;
    Ok(Border { level, cells: &cells[..count as usize] })
}

/// Writes a border in its stored form into the first bytes of `bytes` and returns those; the others
/// stay as they were. [`MAX_BORDER_BYTES`](crate::MAX_BORDER_BYTES) are enough for every border.
/// Level 0 to 14.
///
/// # Errors
///
/// Refused by 1, 5 (no cells), 9, 4, 7, 5 (`bytes` is too short).
///
/// ```
/// use ticklocust::{border_write, Refusal};
///
/// let mut bytes = [0; 8];
/// assert_eq!(border_write(4, &[0, 13, 3], &mut bytes)?, [0x04, 0x00, 0x02, 0x0B]);
/// assert_eq!(border_write(4, &[], &mut bytes), Err(Refusal::Length));
/// assert_eq!(border_write(4, &[0, 200], &mut bytes), Err(Refusal::Step));
/// # Ok::<(), Refusal>(())
/// ```
pub fn border_write<'a>(
    level: u32,
    cells: &[u32],
    bytes: &'a mut [u8],
) -> Result<&'a [u8], Refusal> {
    let length = raw::border_write(level, cells, bytes)?;
    Ok(&bytes[..length as usize])
}
