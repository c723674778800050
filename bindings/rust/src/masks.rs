//! Masks: one bit per cell. A mask of level 0 to 8 is [`mask_len`](crate::mask_len) bytes, 4^level;
//! cell c is bit c mod 8, low bit first, of byte c / 8.

use crate::{raw, Refusal};

/// Grows a mask: `out` marks the cells at most `rings` touching steps from a marked cell, also
/// across the edges of octants. Rings 0 to 64. `out` and `work` may hold anything before; `work`
/// holds zeros afterwards. All three are masks of the level.
///
/// # Errors
///
/// Refused by 1, 5, 6.
///
/// ```
/// use ticklocust::{grow, Refusal};
///
/// let (mut out, mut work) = ([0], [0]);
/// grow(0, 1, &[0b0000_0001], &mut out, &mut work)?;
/// assert_eq!(out, [0b1011_1111]);
/// assert_eq!(grow(0, 65, &[1], &mut out, &mut work), Err(Refusal::Count));
/// assert_eq!(out, [0b1011_1111]);
/// # Ok::<(), Refusal>(())
/// ```
pub fn grow(
    level: u32,
    rings: u32,
    mask: &[u8],
    out: &mut [u8],
    work: &mut [u8],
) -> Result<(), Refusal> {
    raw::grow(level, rings, mask, out, work)
}

/// Shrinks a mask: `out` marks the cells from which every cell within `rings` touching steps is
/// marked. Rings 0 to 64. `out` and `work` may hold anything before; `work` holds zeros
/// afterwards. All three are masks of the level.
///
/// # Errors
///
/// Refused by 1, 5, 6.
///
/// ```
/// let (mut out, mut work) = ([0], [0]);
/// ticklocust::shrink(0, 1, &[0b1011_1111], &mut out, &mut work)?;
/// assert_eq!(out, [0b0000_0001]);
/// # Ok::<(), ticklocust::Refusal>(())
/// ```
pub fn shrink(
    level: u32,
    rings: u32,
    mask: &[u8],
    out: &mut [u8],
    work: &mut [u8],
) -> Result<(), Refusal> {
    raw::shrink(level, rings, mask, out, work)
}

/// Joins two masks: `out` marks the cells marked in either.
///
/// # Errors
///
/// Refused by 1, 5.
///
/// ```
/// let mut out = [0];
/// ticklocust::join(0, &[0b0001], &[0b0101], &mut out)?;
/// assert_eq!(out, [0b0101]);
/// # Ok::<(), ticklocust::Refusal>(())
/// ```
pub fn join(level: u32, a: &[u8], b: &[u8], out: &mut [u8]) -> Result<(), Refusal> {
    raw::join(level, a, b, out)
}

/// The number of marked cells of a mask.
///
/// # Errors
///
/// Refused by 1, 5.
///
/// ```
/// assert_eq!(ticklocust::count(1, &[0xFF, 0, 0, 0x01]), Ok(9));
/// assert_eq!(ticklocust::count(1, &[0xFF]), Err(ticklocust::Refusal::Length));
/// ```
pub fn count(level: u32, mask: &[u8]) -> Result<u32, Refusal> {
    raw::count(level, mask)
}

/// Whether one mask is within another.
#[derive(Clone, Copy, Debug, PartialEq, Eq, Hash)]
pub enum Within {
    /// Every cell marked in the first is marked in the second.
    Yes,
    /// The lowest cell that is marked in the first and not in the second.
    Lacking(u32),
}

/// Whether every cell marked in `a` is marked in `b`; if not, the lowest that isn't.
///
/// # Errors
///
/// Refused by 1, 5.
///
/// ```
/// use ticklocust::{within, Within};
///
/// assert_eq!(within(0, &[0b0001], &[0b0101]), Ok(Within::Yes));
/// assert_eq!(within(0, &[0b0101], &[0b0001]), Ok(Within::Lacking(2)));
/// ```
pub fn within(level: u32, a: &[u8], b: &[u8]) -> Result<Within, Refusal> {
    Ok(match raw::within(level, a, b)? {
        u32::MAX => Within::Yes,
        cell => Within::Lacking(cell),
    })
}

/// Fills a region: `out` marks the cells that the outside cell can't reach by direct steps through
/// unmarked cells of `border`, the border included.
///
/// # Errors
///
/// Refused by 1, 4, 5, 8.
///
/// ```
/// use ticklocust::{fill, Refusal};
///
/// // The direct neighbours of octant 0, which are 1, 3 and 4, enclose it.
/// let (border, mut out) = ([0b0001_1010], [0]);
/// fill(0, &border, 6, &mut out)?;
/// assert_eq!(out, [0b0001_1011]);
/// assert_eq!(fill(0, &border, 4, &mut out), Err(Refusal::Outside));
/// # Ok::<(), Refusal>(())
/// ```
pub fn fill(level: u32, border: &[u8], outside: u32, out: &mut [u8]) -> Result<(), Refusal> {
    raw::fill(level, border, outside, out)
}
