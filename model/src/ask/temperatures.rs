//! Temperatures as words: degrees and eighths, as 20.0 or 10.125, which are exact in 32 bits. A + or
//! a - after them is the next higher or lower 32-bit number; nan, inf and -inf stand for themselves.

use crate::words::Read;

const EIGHTHS: [&str; 8] = ["0", "125", "25", "375", "5", "625", "75", "875"];
/// Below 100,000 degrees an eighth and its two neighbours are three numbers.
const MOST_DIGITS: usize = 5;

pub fn read(word: &str) -> Read<f32> {
    match word {
        "nan" => return Ok(f32::NAN),
        "inf" => return Ok(f32::INFINITY),
        "-inf" => return Ok(f32::NEG_INFINITY),
        _ => {}
    }
    let plain = word.trim_end_matches(['+', '-']);
    let (whole, part) = plain.split_once('.').unwrap_or_default();
    let digits = whole.strip_prefix('-').unwrap_or(whole);
    let written = (1..=MOST_DIGITS).contains(&digits.len())
        && digits.bytes().all(|byte| byte.is_ascii_digit())
        && EIGHTHS.contains(&part);
    let value = if written { plain.parse::<f32>().ok() } else { None };
    match (value, &word[plain.len()..]) {
        (Some(value), "") => Ok(value),
        (Some(value), "+") => Ok(value.next_up()),
        (Some(value), "-") => Ok(value.next_down()),
        _ => Err(format!("not a temperature in degrees and eighths, as 20.0 or 10.125: '{word}'")),
    }
}

pub fn list(words: &[String]) -> Read<Vec<f32>> {
    words.iter().map(|word| read(word)).collect()
}

pub fn shown(value: f32) -> String {
    if value.is_nan() {
        "nan".into()
    } else if value.is_infinite() || is_eighth(value) {
        format!("{value:?}")
    } else if is_eighth(value.next_down()) {
        format!("{:?}+", value.next_down())
    } else {
        format!("{:?}-", value.next_up())
    }
}

fn is_eighth(value: f32) -> bool {
    (value * 8.0).fract() == 0.0
}
