//! Cells, positions, steps and touching.

use crate::outcome::{Outcome, Slice, UNWRITTEN};

extern "C" {
    fn ticklocust_cell_at(level: u32, latitude: i32, longitude: i32, cell: *mut u32) -> u32;
    fn ticklocust_centre(level: u32, cell: u32, latitude: *mut i32, longitude: *mut i32) -> u32;
    fn ticklocust_step(level: u32, cell: u32, code: u32, to: *mut u32) -> u32;
    fn ticklocust_code(level: u32, from: u32, to: u32, code: *mut u32) -> u32;
    fn ticklocust_touching(
        level: u32,
        cell: u32,
        cells: *mut u32,
        cells_len: usize,
        count: *mut u32,
    ) -> u32;
}

pub fn cell_at(level: u32, latitude: i32, longitude: i32) -> Outcome {
    let mut answers = [UNWRITTEN; 3];
    // SAFETY: the pointer is to a word of this frame.
    let said = unsafe { ticklocust_cell_at(level, latitude, longitude, &mut answers[0]) };
    Outcome::library(said, answers, Vec::new())
}

pub fn centre(level: u32, cell: u32) -> Outcome {
    let mut answers = [UNWRITTEN as i32; 3];
    let [latitude, longitude, _] = &mut answers;
    // SAFETY: the pointers are to two words of this frame.
    let said = unsafe { ticklocust_centre(level, cell, latitude, longitude) };
    Outcome::library(said, answers.map(|a| a as u32), Vec::new())
}

pub fn step(level: u32, cell: u32, code: u32) -> Outcome {
    let mut answers = [UNWRITTEN; 3];
    // SAFETY: the pointer is to a word of this frame.
    let said = unsafe { ticklocust_step(level, cell, code, &mut answers[0]) };
    Outcome::library(said, answers, Vec::new())
}

pub fn code(level: u32, from: u32, to: u32) -> Outcome {
    let mut answers = [UNWRITTEN; 3];
    // SAFETY: the pointer is to a word of this frame.
    let said = unsafe { ticklocust_code(level, from, to, &mut answers[0]) };
    Outcome::library(said, answers, Vec::new())
}

pub fn touching(level: u32, cell: u32, cells: &[u32]) -> Outcome {
    let mut answers = [UNWRITTEN; 3];
    let mut list = cells.to_vec();
    let (places, length) = (list.as_mut_ptr(), list.len());
    // SAFETY: the slice's pointer goes with its length; the answer's is to a word of this frame.
    let said = unsafe { ticklocust_touching(level, cell, places, length, &mut answers[0]) };
    Outcome::library(said, answers, vec![Slice::Words(list)])
}
