//! The words of a call: what a shell or a line of a file gives, read one after the other.

use model::cells::{Kind, MAX_MASK_LEVEL};
use model::masks::{mask_bytes, mask_of};

/// What was read, or a sentence that says which word can't be read.
pub type Read<T> = Result<T, String>;

pub const LETTERS: &str = "tlrewTEW";
/// More than the three lists of a day of level 8 need.
const MOST_WORDS: usize = 1 << 21;

/// The words with repetitions written out, and with a last word `list` replaced by the list.
pub fn expanded(words: &[&str], list: &[String]) -> Read<Vec<String>> {
    let mut all = Vec::new();
    for (i, word) in words.iter().enumerate() {
        if *word == "list" && i + 1 == words.len() {
            all.extend_from_slice(list);
            continue;
        }
        let (times, word) = match word.split_once('*') {
            Some((times, word)) => (number("repetition", times)? as usize, word),
            None => (1, *word),
        };
        if all.len() + times > MOST_WORDS {
            return Err(format!("there are more than {MOST_WORDS} words"));
        }
        all.extend(std::iter::repeat_n(word.to_string(), times));
    }
    Ok(all)
}

/// The words that are not read yet.
pub struct Words<'a>(&'a [String]);

impl<'a> Words<'a> {
    pub fn new(words: &'a [String]) -> Words<'a> {
        Words(words)
    }

    fn next(&mut self, name: &str) -> Read<&'a str> {
        let (first, rest) = self.0.split_first().ok_or(format!("{name} is missing"))?;
        self.0 = rest;
        Ok(first)
    }

    pub fn number(&mut self, name: &str) -> Read<u32> {
        number(name, self.next(name)?)
    }

    /// A latitude or a longitude.
    pub fn angle(&mut self, name: &str) -> Read<i32> {
        let word = self.next(name)?;
        let value = if is_digits(word.strip_prefix('-').unwrap_or(word)) {
            word.parse().ok()
        } else {
            None
        };
        let needed = "whole millionths of a degree, of at most 32 bits";
        value.ok_or(format!("{name} is not in {needed}: '{word}'"))
    }

    pub fn cell(&mut self) -> Read<u32> {
        cell(self.next("CELL")?)
    }

    /// A code's letter or its number.
    pub fn code(&mut self) -> Read<u32> {
        code(self.next("CODE")?)
    }

    pub fn kind(&mut self) -> Read<Kind> {
        match self.next("up or down")? {
            "up" => Ok(Kind::Up),
            "down" => Ok(Kind::Down),
            word => Err(format!("neither up nor down: {word}")),
        }
    }

    pub fn is_empty(&self) -> bool {
        self.0.is_empty()
    }

    /// All words that are left.
    pub fn rest(&mut self) -> &'a [String] {
        std::mem::take(&mut self.0)
    }

    /// The words that are left, as lists with a slash between.
    pub fn lists<const N: usize>(&mut self) -> Read<[&'a [String]; N]> {
        let lists: Vec<&[String]> = self.rest().split(|word| word == "/").collect();
        let found = lists.len();
        lists.try_into().map_err(|_| format!("{N} lists with / between are needed, not {found}"))
    }
}

/// A number of digits alone, below 2^32.
pub fn number(name: &str, word: &str) -> Read<u32> {
    let value = if is_digits(word) { word.parse().ok() } else { None };
    value.ok_or(format!("{name} is not a number from 0 to 4294967295: '{word}'"))
}

fn is_digits(word: &str) -> bool {
    !word.is_empty() && word.bytes().all(|byte| byte.is_ascii_digit())
}

/// A cell's number, or @ and its address: the octant's digit and one digit a level.
pub fn cell(word: &str) -> Read<u32> {
    let Some(address) = word.strip_prefix('@') else {
        return number("CELL", word);
    };
    let wrong = || format!("not an address, an octant 0 to 7 and digits 0 to 3: '{word}'");
    let digits = address.chars().map(|c| c.to_digit(8)).collect::<Option<Vec<u32>>>();
    let digits = digits.filter(|d| (1..=15).contains(&d.len())).ok_or_else(wrong)?;
    if digits[1..].iter().any(|&digit| digit > 3) {
        return Err(wrong());
    }
    Ok(digits.iter().fold(0, |sum, digit| sum * 4 + digit))
}

pub fn code(word: &str) -> Read<u32> {
    let mut letters = word.chars();
    match (letters.next().and_then(|letter| LETTERS.find(letter)), letters.next()) {
        (Some(code), None) => Ok(code as u32),
        _ => number("CODE", word).map_err(|_| {
            format!("CODE is neither one of the letters {LETTERS} nor a number: '{word}'")
        }),
    }
}

pub fn cells(words: &[String]) -> Read<Vec<u32>> {
    words.iter().map(|word| cell(word)).collect()
}

pub fn bytes(name: &str, words: &[String]) -> Read<Vec<u8>> {
    let byte = |word: &String| {
        let value = number(name, word)?;
        u8::try_from(value).map_err(|_| format!("{name} has a byte above 255: {value}"))
    };
    words.iter().map(byte).collect()
}

/// The mask of the listed cells; with `long` after them it is one byte too long. Above level 8
/// there is no mask: a byte stands for it.
pub fn mask(level: u32, words: &[String]) -> Read<Vec<u8>> {
    let (words, extra) = match words.split_last() {
        Some((last, before)) if last == "long" => (before, 1),
        _ => (words, 0),
    };
    let length = if level <= MAX_MASK_LEVEL { mask_bytes(level) } else { 1 };
    let mut marks = vec![false; 8 * length];
    for cell in cells(words)? {
        let mark = marks.get_mut(cell as usize);
        *mark.ok_or(format!("a mask of level {level} has no cell {cell}"))? = true;
    }
    let mut mask = mask_of(&marks);
    mask.resize(length + extra, 0);
    Ok(mask)
}
