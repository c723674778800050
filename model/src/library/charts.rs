//! Charts: a cell's reading and one day. Temperatures are lent by their bits, so that nothing on
//! this side changes a value that is no number.

use crate::outcome::{Outcome, Slice, UNWRITTEN};

extern "C" {
    fn ticklocust_reading(
        level: u32,
        cell: u32,
        temperatures: *const f32,
        temperatures_len: usize,
        ages: *const u8,
        ages_len: usize,
        kind: *mut u32,
        temperature: *mut f32,
        days: *mut u32,
    ) -> u32;
    fn ticklocust_day(
        level: u32,
        limit: u32,
        news: *const f32,
        news_len: usize,
        cloud: *const u8,
        cloud_len: usize,
        temperatures: *mut f32,
        temperatures_len: usize,
        ages: *mut u8,
        ages_len: usize,
        count: *mut u32,
        coldest: *mut f32,
        warmest: *mut f32,
    ) -> u32;
}

/// Stands for every NaN: which of them a gap reads is left open.
pub const SOME_NAN: u32 = 0x7FC0_0000;

/// The chart is not copied for each of its many readings; who calls this looks afterwards
/// whether it still is what it was.
pub fn reading(level: u32, cell: u32, temperatures: &mut [u32], ages: &mut [u8]) -> Outcome {
    let mut answers = [UNWRITTEN; 3];
    let [kind, temperature, days] = &mut answers;
    let temperature: *mut u32 = temperature;
    // SAFETY: each slice's pointer goes with its length, the answers' are to this frame, and a
    // float has the size and alignment of the word that holds its bits.
    let said = unsafe {
        ticklocust_reading(
            level,
            cell,
            temperatures.as_mut_ptr().cast(),
            temperatures.len(),
            ages.as_mut_ptr(),
            ages.len(),
            kind,
            temperature.cast(),
            days,
        )
    };
    if answers[0] == 2 && f32::from_bits(answers[1]).is_nan() {
        answers[1] = SOME_NAN;
    }
    Outcome::library(said, answers, Vec::new())
}

pub fn day(
    level: u32,
    limit: u32,
    news: &[u32],
    cloud: &[u8],
    temperatures: &[u32],
    ages: &[u8],
) -> Outcome {
    let mut answers = [UNWRITTEN; 3];
    let [count, coldest, warmest] = &mut answers;
    let (coldest, warmest): (*mut u32, *mut u32) = (coldest, warmest);
    let (mut news, mut temperatures) = (news.to_vec(), temperatures.to_vec());
    let (mut cloud, mut ages) = (cloud.to_vec(), ages.to_vec());
    // SAFETY: as above, with copies of exactly their lengths.
    let said = unsafe {
        ticklocust_day(
            level,
            limit,
            news.as_mut_ptr().cast(),
            news.len(),
            cloud.as_mut_ptr(),
            cloud.len(),
            temperatures.as_mut_ptr().cast(),
            temperatures.len(),
            ages.as_mut_ptr(),
            ages.len(),
            count,
            coldest.cast(),
            warmest.cast(),
        )
    };
    let words = [news, temperatures].into_iter().map(Slice::Words);
    let bytes = [cloud, ages].into_iter().map(Slice::Bytes);
    Outcome::library(said, answers, words.chain(bytes).collect())
}
