//! Masks: grow, shrink, join, count, within, fill.

use crate::outcome::{Outcome, Slice, UNWRITTEN};

type Ringed = unsafe extern "C" fn(
    level: u32,
    rings: u32,
    mask: *const u8,
    mask_len: usize,
    out: *mut u8,
    out_len: usize,
    work: *mut u8,
    work_len: usize,
) -> u32;

extern "C" {
    fn ticklocust_grow(
        level: u32,
        rings: u32,
        mask: *const u8,
        mask_len: usize,
        out: *mut u8,
        out_len: usize,
        work: *mut u8,
        work_len: usize,
    ) -> u32;
    fn ticklocust_shrink(
        level: u32,
        rings: u32,
        mask: *const u8,
        mask_len: usize,
        out: *mut u8,
        out_len: usize,
        work: *mut u8,
        work_len: usize,
    ) -> u32;
    fn ticklocust_join(
        level: u32,
        a: *const u8,
        a_len: usize,
        b: *const u8,
        b_len: usize,
        out: *mut u8,
        out_len: usize,
    ) -> u32;
    fn ticklocust_count(level: u32, mask: *const u8, mask_len: usize, count: *mut u32) -> u32;
    fn ticklocust_within(
        level: u32,
        a: *const u8,
        a_len: usize,
        b: *const u8,
        b_len: usize,
        lacking: *mut u32,
    ) -> u32;
    fn ticklocust_fill(
        level: u32,
        border: *const u8,
        border_len: usize,
        outside: u32,
        out: *mut u8,
        out_len: usize,
    ) -> u32;
}

/// A slice of bytes lent to a call: a copy on the heap of exactly this length.
struct Lent(Vec<u8>);

impl Lent {
    fn new(bytes: &[u8]) -> Lent {
        Lent(bytes.to_vec())
    }

    fn at(&mut self) -> *mut u8 {
        self.0.as_mut_ptr()
    }

    fn len(&self) -> usize {
        self.0.len()
    }
}

fn returned(slices: impl IntoIterator<Item = Lent>) -> Vec<Slice> {
    slices.into_iter().map(|lent| Slice::Bytes(lent.0)).collect()
}

fn ringed(call: Ringed, level: u32, rings: u32, slices: [&[u8]; 3]) -> Outcome {
    let [mut mask, mut out, mut work] = slices.map(Lent::new);
    let (m, o, w) = (mask.len(), out.len(), work.len());
    // SAFETY: each pointer goes with the length of the copy behind it.
    let said = unsafe { call(level, rings, mask.at(), m, out.at(), o, work.at(), w) };
    Outcome::library(said, [UNWRITTEN; 3], returned([mask, out, work]))
}

pub fn grow(level: u32, rings: u32, mask: &[u8], out: &[u8], work: &[u8]) -> Outcome {
    ringed(ticklocust_grow, level, rings, [mask, out, work])
}

pub fn shrink(level: u32, rings: u32, mask: &[u8], out: &[u8], work: &[u8]) -> Outcome {
    ringed(ticklocust_shrink, level, rings, [mask, out, work])
}

pub fn join(level: u32, a: &[u8], b: &[u8], out: &[u8]) -> Outcome {
    let [mut a, mut b, mut out] = [a, b, out].map(Lent::new);
    let (x, y, z) = (a.len(), b.len(), out.len());
    // SAFETY: each pointer goes with the length of the copy behind it.
    let said = unsafe { ticklocust_join(level, a.at(), x, b.at(), y, out.at(), z) };
    Outcome::library(said, [UNWRITTEN; 3], returned([a, b, out]))
}

pub fn count(level: u32, mask: &[u8]) -> Outcome {
    let mut answers = [UNWRITTEN; 3];
    let mut mask = Lent::new(mask);
    let length = mask.len();
    // SAFETY: the pointer goes with the length of the copy; the answer's is to this frame.
    let said = unsafe { ticklocust_count(level, mask.at(), length, &mut answers[0]) };
    Outcome::library(said, answers, returned([mask]))
}

pub fn within(level: u32, a: &[u8], b: &[u8]) -> Outcome {
    let mut answers = [UNWRITTEN; 3];
    let [mut a, mut b] = [a, b].map(Lent::new);
    let (x, y) = (a.len(), b.len());
    // SAFETY: each pointer goes with the length of the copy; the answer's is to this frame.
    let said = unsafe { ticklocust_within(level, a.at(), x, b.at(), y, &mut answers[0]) };
    Outcome::library(said, answers, returned([a, b]))
}

pub fn fill(level: u32, border: &[u8], outside: u32, out: &[u8]) -> Outcome {
    let [mut border, mut out] = [border, out].map(Lent::new);
    let (x, y) = (border.len(), out.len());
    // SAFETY: each pointer goes with the length of the copy behind it.
    let said = unsafe { ticklocust_fill(level, border.at(), x, outside, out.at(), y) };
    Outcome::library(said, [UNWRITTEN; 3], returned([border, out]))
}
