//! The stored border: reader and writer.

use crate::outcome::{Outcome, Slice, UNWRITTEN};

extern "C" {
    fn ticklocust_border_read(
        bytes: *const u8,
        bytes_len: usize,
        cells: *mut u32,
        cells_len: usize,
        level: *mut u32,
        count: *mut u32,
    ) -> u32;
    fn ticklocust_border_write(
        level: u32,
        cells: *const u32,
        cells_len: usize,
        bytes: *mut u8,
        bytes_len: usize,
        length: *mut u32,
    ) -> u32;
}

pub fn read(bytes: &[u8], cells: &[u32]) -> Outcome {
    let mut answers = [UNWRITTEN; 3];
    let [level, count, _] = &mut answers;
    let (mut bytes, mut cells) = (bytes.to_vec(), cells.to_vec());
    // SAFETY: each pointer goes with the length of the copy; the answers' are to this frame.
    let said = unsafe {
        ticklocust_border_read(
            bytes.as_mut_ptr(),
            bytes.len(),
            cells.as_mut_ptr(),
            cells.len(),
            level,
            count,
        )
    };
    Outcome::library(said, answers, vec![Slice::Bytes(bytes), Slice::Words(cells)])
}

pub fn write(level: u32, cells: &[u32], bytes: &[u8]) -> Outcome {
    let mut answers = [UNWRITTEN; 3];
    let (mut cells, mut bytes) = (cells.to_vec(), bytes.to_vec());
    // SAFETY: each pointer goes with the length of the copy; the answer's is to this frame.
    let said = unsafe {
        ticklocust_border_write(
            level,
            cells.as_mut_ptr(),
            cells.len(),
            bytes.as_mut_ptr(),
            bytes.len(),
            &mut answers[0],
        )
    };
    Outcome::library(said, answers, vec![Slice::Words(cells), Slice::Bytes(bytes)])
}
