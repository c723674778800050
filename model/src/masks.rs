//! Masks that grow, shrink and join, their count, and within (docs/RULES.md, 6).

use std::collections::VecDeque;

use crate::cells::{check_level, MAX_MASK_LEVEL};
use crate::refusals::{refuse, Answer, COUNT, LENGTH};
use crate::touching::Level;

/// The most rings of a growing or shrinking.
pub const MAX_RINGS: u32 = 64;
/// What `within` answers for yes.
pub const WITHIN: u32 = 4_294_967_295;

/// 4^k, the bytes of a mask.
pub fn mask_bytes(level: u32) -> usize {
    4usize.pow(level)
}

/// Which cells a mask marks: cell c is bit c mod 8, low bit first, of byte c/8.
pub fn marks(mask: &[u8]) -> Vec<bool> {
    (0..mask.len() * 8).map(|c| mask[c / 8] & (1 << (c % 8)) != 0).collect()
}

/// The mask that marks these cells.
pub fn mask_of(marks: &[bool]) -> Vec<u8> {
    let byte = |bits: &[bool]| (0..8).map(|i| u8::from(bits[i]) << i).sum();
    marks.chunks(8).map(byte).collect()
}

/// Refusals 1 and 5 of a call that is lent masks of these lengths.
pub fn check_masks(level: u32, lengths: &[usize]) -> Answer<()> {
    check_level(level, MAX_MASK_LEVEL)?;
    refuse(LENGTH, lengths.iter().any(|&length| length != mask_bytes(level)))
}

/// For each cell the fewest touching steps from a start, as far as `most` steps; None beyond.
pub fn distances(level: u32, starts: &[bool], most: u32) -> Vec<Option<u32>> {
    let touching = &Level::of(level).touching;
    let mut distance: Vec<Option<u32>> = starts.iter().map(|&s| s.then_some(0)).collect();
    let mut queue: VecDeque<usize> = (0..starts.len()).filter(|&c| starts[c]).collect();
    while let Some(cell) = queue.pop_front() {
        let next = distance[cell].expect("queued cells have a distance") + 1;
        if next > most {
            continue;
        }
        for &other in &touching[cell] {
            if distance[other as usize].is_none() {
                distance[other as usize] = Some(next);
                queue.push_back(other as usize);
            }
        }
    }
    distance
}

/// Grow: the cells at most `rings` touching steps from a marked cell.
pub fn grow(level: u32, rings: u32, mask: &[u8], out: usize, work: usize) -> Answer<Vec<u8>> {
    check_masks(level, &[mask.len(), out, work])?;
    refuse(COUNT, rings > MAX_RINGS)?;
    let near = distances(level, &marks(mask), rings);
    Ok(mask_of(&near.iter().map(Option::is_some).collect::<Vec<bool>>()))
}

/// Shrink: the cells from which every cell within `rings` touching steps is marked, which are
/// those with no unmarked cell so near.
pub fn shrink(level: u32, rings: u32, mask: &[u8], out: usize, work: usize) -> Answer<Vec<u8>> {
    check_masks(level, &[mask.len(), out, work])?;
    refuse(COUNT, rings > MAX_RINGS)?;
    let unmarked: Vec<bool> = marks(mask).iter().map(|&m| !m).collect();
    let near = distances(level, &unmarked, rings);
    Ok(mask_of(&near.iter().map(Option::is_none).collect::<Vec<bool>>()))
}

/// Join: the cells marked in either mask.
pub fn join(level: u32, a: &[u8], b: &[u8], out: usize) -> Answer<Vec<u8>> {
    check_masks(level, &[a.len(), b.len(), out])?;
    let pairs = marks(a).into_iter().zip(marks(b));
    Ok(mask_of(&pairs.map(|(x, y)| x || y).collect::<Vec<bool>>()))
}

/// The number of marked cells.
pub fn count(level: u32, mask: &[u8]) -> Answer<u32> {
    check_masks(level, &[mask.len()])?;
    Ok(marks(mask).into_iter().filter(|&m| m).count() as u32)
}

/// Within: yes, or the lowest cell marked in the first mask and not in the second.
pub fn within(level: u32, a: &[u8], b: &[u8]) -> Answer<u32> {
    check_masks(level, &[a.len(), b.len()])?;
    let lacking = marks(a).into_iter().zip(marks(b)).position(|(x, y)| x && !y);
    Ok(lacking.map_or(WITHIN, |cell| cell as u32))
}
