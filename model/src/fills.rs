//! Filling by reach from outside (docs/RULES.md, 6.2).

use std::collections::VecDeque;

use crate::cells::{check_cell, check_level, MAX_MASK_LEVEL};
use crate::masks::{check_masks, marks, mask_of};
use crate::refusals::{refuse, Answer, OUTSIDE_MARKED};
use crate::touching::Level;

/// All cells that the outside cell can't reach by direct steps through unmarked cells.
pub fn fill(level: u32, border: &[u8], outside: u32, out: usize) -> Answer<Vec<u8>> {
    check_level(level, MAX_MASK_LEVEL)?;
    check_cell(level, outside)?;
    check_masks(level, &[border.len(), out])?;
    let border = marks(border);
    refuse(OUTSIDE_MARKED, border[outside as usize])?;

    let direct = &Level::of(level).direct;
    let mut reached = vec![false; border.len()];
    reached[outside as usize] = true;
    let mut queue = VecDeque::from([outside]);
    while let Some(cell) = queue.pop_front() {
        for &next in &direct[cell as usize] {
            if !border[next as usize] && !reached[next as usize] {
                reached[next as usize] = true;
                queue.push_back(next);
            }
        }
    }
    Ok(mask_of(&reached.iter().map(|&r| !r).collect::<Vec<bool>>()))
}
