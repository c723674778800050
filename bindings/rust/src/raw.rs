//! The calls of `include/ticklocust.h`: the crate's only unsafe code.
//!
//! Every call below meets the header's requirements in the same way:
//! - A slice is passed as its pointer, which is aligned and never null, and its own length.
//! - What is written is behind a `&mut` or is a local variable, so it overlaps nothing else that is
//!   passed, and no other thread uses it until the call returns; what is read is behind a `&`, so
//!   no other thread writes it.
//! - The declarations have the header's types; every bit pattern of these is a value in Rust too.

#![allow(unsafe_code)]

use crate::Refusal;

#[rustfmt::skip]
extern "C" {
    fn ticklocust_cell_at(level: u32, latitude: i32, longitude: i32, cell: *mut u32) -> u32;
    fn ticklocust_centre(level: u32, cell: u32, latitude: *mut i32, longitude: *mut i32) -> u32;
    fn ticklocust_step(level: u32, cell: u32, code: u32, to: *mut u32) -> u32;
    fn ticklocust_code(level: u32, from: u32, to: u32, code: *mut u32) -> u32;
    fn ticklocust_touching(level: u32, cell: u32, cells: *mut u32, cells_len: usize,
        count: *mut u32) -> u32;
    fn ticklocust_border_read(bytes: *const u8, bytes_len: usize, cells: *mut u32, cells_len: usize,
        level: *mut u32, count: *mut u32) -> u32;
    fn ticklocust_border_write(level: u32, cells: *const u32, cells_len: usize, bytes: *mut u8,
        bytes_len: usize, length: *mut u32) -> u32;
    fn ticklocust_grow(level: u32, rings: u32, mask: *const u8, mask_len: usize, out: *mut u8,
        out_len: usize, work: *mut u8, work_len: usize) -> u32;
    fn ticklocust_shrink(level: u32, rings: u32, mask: *const u8, mask_len: usize, out: *mut u8,
        out_len: usize, work: *mut u8, work_len: usize) -> u32;
    fn ticklocust_join(level: u32, a: *const u8, a_len: usize, b: *const u8, b_len: usize,
        out: *mut u8, out_len: usize) -> u32;
    fn ticklocust_count(level: u32, mask: *const u8, mask_len: usize, count: *mut u32) -> u32;
    fn ticklocust_within(level: u32, a: *const u8, a_len: usize, b: *const u8, b_len: usize,
        lacking: *mut u32) -> u32;
    fn ticklocust_fill(level: u32, border: *const u8, border_len: usize, outside: u32, out: *mut u8,
        out_len: usize) -> u32;
    fn ticklocust_reading(level: u32, cell: u32, temperatures: *const f32, temperatures_len: usize,
        ages: *const u8, ages_len: usize, kind: *mut u32, temperature: *mut f32,
        days: *mut u32) -> u32;
    fn ticklocust_day(level: u32, limit: u32, news: *const f32, news_len: usize, cloud: *const u8,
        cloud_len: usize, temperatures: *mut f32, temperatures_len: usize, ages: *mut u8,
        ages_len: usize, count: *mut u32, coldest: *mut f32, warmest: *mut f32) -> u32;
}

/// The answer of a call that returned `said`.
fn answer<T>(said: u32, given: T) -> Result<T, Refusal> {
    match said {
        0 => Ok(given),
        n => Err(Refusal::from_number(n).expect("the library returns 0 to 12: this is proved")),
    }
}

pub fn cell_at(level: u32, latitude: i32, longitude: i32) -> Result<u32, Refusal> {
    let mut cell = 0;
    // SAFETY: the answer is a word of this frame.
    let said = unsafe { ticklocust_cell_at(level, latitude, longitude, &mut cell) };
    answer(said, cell)
}

pub fn centre(level: u32, cell: u32) -> Result<(i32, i32), Refusal> {
    let (mut latitude, mut longitude) = (0, 0);
    // SAFETY: the answers are two words of this frame.
    let said = unsafe { ticklocust_centre(level, cell, &mut latitude, &mut longitude) };
    answer(said, (latitude, longitude))
}

pub fn step(level: u32, cell: u32, code: u32) -> Result<u32, Refusal> {
    let mut to = 0;
    // SAFETY: the answer is a word of this frame.
    let said = unsafe { ticklocust_step(level, cell, code, &mut to) };
    answer(said, to)
}

pub fn code(level: u32, from: u32, to: u32) -> Result<u32, Refusal> {
    let mut code = 0;
    // SAFETY: the answer is a word of this frame.
    let said = unsafe { ticklocust_code(level, from, to, &mut code) };
    answer(said, code)
}

pub fn touching(level: u32, cell: u32, cells: &mut [u32]) -> Result<u32, Refusal> {
    let (list, length, mut count) = (cells.as_mut_ptr(), cells.len(), 0);
    // SAFETY: the list is lent by &mut, with its length; the answer is a word of this frame.
    let said = unsafe { ticklocust_touching(level, cell, list, length, &mut count) };
    answer(said, count)
}

/// Answers the level and the number of cells.
#[rustfmt::skip]
pub fn border_read(bytes: &[u8], cells: &mut [u32]) -> Result<(u32, u32), Refusal> {
    let (mut level, mut count) = (0, 0);
    // SAFETY: read by &, written by &mut, each with its length; the answers are of this frame.
    let said = unsafe {
        ticklocust_border_read(bytes.as_ptr(), bytes.len(), cells.as_mut_ptr(), cells.len(),
            &mut level, &mut count)
    };
    answer(said, (level, count))
}

/// Answers the number of bytes.
#[rustfmt::skip]
pub fn border_write(level: u32, cells: &[u32], bytes: &mut [u8]) -> Result<u32, Refusal> {
    let mut length = 0;
    // SAFETY: read by &, written by &mut, each with its length; the answer is of this frame.
    let said = unsafe {
        ticklocust_border_write(level, cells.as_ptr(), cells.len(), bytes.as_mut_ptr(),
            bytes.len(), &mut length)
    };
    answer(said, length)
}

#[rustfmt::skip]
pub fn grow(level: u32, rings: u32, mask: &[u8], out: &mut [u8], work: &mut [u8])
    -> Result<(), Refusal> {
    // SAFETY: one mask by &, two by &mut, so all apart, each with its length.
    let said = unsafe {
        ticklocust_grow(level, rings, mask.as_ptr(), mask.len(), out.as_mut_ptr(), out.len(),
            work.as_mut_ptr(), work.len())
    };
    answer(said, ())
}

#[rustfmt::skip]
pub fn shrink(level: u32, rings: u32, mask: &[u8], out: &mut [u8], work: &mut [u8])
    -> Result<(), Refusal> {
    // SAFETY: one mask by &, two by &mut, so all apart, each with its length.
    let said = unsafe {
        ticklocust_shrink(level, rings, mask.as_ptr(), mask.len(), out.as_mut_ptr(), out.len(),
            work.as_mut_ptr(), work.len())
    };
    answer(said, ())
}

#[rustfmt::skip]
pub fn join(level: u32, a: &[u8], b: &[u8], out: &mut [u8]) -> Result<(), Refusal> {
    // SAFETY: two masks by &, which may be one, and one by &mut, each with its length.
    let said = unsafe {
        ticklocust_join(level, a.as_ptr(), a.len(), b.as_ptr(), b.len(), out.as_mut_ptr(),
            out.len())
    };
    answer(said, ())
}

pub fn count(level: u32, mask: &[u8]) -> Result<u32, Refusal> {
    let mut count = 0;
    // SAFETY: the mask is lent by &, with its length; the answer is a word of this frame.
    let said = unsafe { ticklocust_count(level, mask.as_ptr(), mask.len(), &mut count) };
    answer(said, count)
}

/// Answers u32::MAX when every cell of a is in b.
#[rustfmt::skip]
pub fn within(level: u32, a: &[u8], b: &[u8]) -> Result<u32, Refusal> {
    let mut lacking = 0;
    // SAFETY: two masks by &, which may be one, with their lengths; the answer is of this frame.
    let said = unsafe {
        ticklocust_within(level, a.as_ptr(), a.len(), b.as_ptr(), b.len(), &mut lacking)
    };
    answer(said, lacking)
}

#[rustfmt::skip]
pub fn fill(level: u32, border: &[u8], outside: u32, out: &mut [u8]) -> Result<(), Refusal> {
    // SAFETY: one mask by &, one by &mut, each with its length.
    let said = unsafe {
        ticklocust_fill(level, border.as_ptr(), border.len(), outside, out.as_mut_ptr(), out.len())
    };
    answer(said, ())
}

/// Answers kind, temperature and days; of a gap 2, a NaN and 255.
#[rustfmt::skip]
pub fn reading(level: u32, cell: u32, temperatures: &[f32], ages: &[u8])
    -> Result<(u32, f32, u32), Refusal> {
    let (mut kind, mut temperature, mut days) = (0, 0.0, 0);
    // SAFETY: the chart's slices by &, with their lengths; the answers are words of this frame.
    let said = unsafe {
        ticklocust_reading(level, cell, temperatures.as_ptr(), temperatures.len(), ages.as_ptr(),
            ages.len(), &mut kind, &mut temperature, &mut days)
    };
    answer(said, (kind, temperature, days))
}

/// Answers count, coldest and warmest.
#[rustfmt::skip]
pub fn day(level: u32, limit: u32, news: &[f32], cloud: &[u8], temperatures: &mut [f32],
    ages: &mut [u8]) -> Result<(u32, f32, f32), Refusal> {
    let (mut count, mut coldest, mut warmest) = (0, 0.0, 0.0);
    // SAFETY: two slices by &, two by &mut, so apart, each with its length; the answers are words
    // of this frame.
    let said = unsafe {
        ticklocust_day(level, limit, news.as_ptr(), news.len(), cloud.as_ptr(), cloud.len(),
            temperatures.as_mut_ptr(), temperatures.len(), ages.as_mut_ptr(), ages.len(),
            &mut count, &mut coldest, &mut warmest)
    };
    answer(said, (count, coldest, warmest))
}
