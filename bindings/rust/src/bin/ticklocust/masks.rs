//! `grow`, `shrink`, `join`, `count`, `within`, `fill`.

use std::array::from_fn;
use std::ffi::{OsStr, OsString};
use std::process::ExitCode;

use ticklocust::{mask_len, Refusal, Within, MAX_MASK_LEVEL};

use crate::files::{told, Inputs};
use crate::outputs::{say, write};
use crate::trouble::{Done, Of, Trouble, NO};
use crate::words::Words;

/// The most bytes of a mask.
pub const MOST: usize = 1 << (2 * MAX_MASK_LEVEL);

/// Masks that were read, and their level: the one given, or the one that the first one's length
/// says.
pub struct Masks<'a, const N: usize> {
    pub level: u32,
    pub bytes: [Vec<u8>; N],
    places: [&'a OsStr; N],
    pub inputs: Inputs,
}

impl<'a, const N: usize> Masks<'a, N> {
    pub fn read(words: &Words, places: [&'a OsStr; N]) -> Result<Masks<'a, N>, Trouble> {
        let given = words.number("level")?;
        let mut inputs = Inputs::default();
        let mut bytes = [const { Vec::new() }; N];
        for (bytes, place) in bytes.iter_mut().zip(places) {
            *bytes = inputs.read(place, MOST)?;
        }
        let level = given.unwrap_or_else(|| level_of(bytes[0].len(), 1));
        Ok(Masks { level, bytes, places, inputs })
    }

    /// An empty mask of the level; the library refuses the call before it is looked at where the
    /// level has none.
    pub fn empty(&self) -> Vec<u8> {
        vec![0; mask_len(self.level).unwrap_or(0)]
    }

    pub fn refused(&self, refusal: Refusal) -> Trouble {
        let files: [Length; N] = from_fn(|i| (self.places[i], self.bytes[i].len(), MOST));
        lengths_told(Of::Masks, refusal, self.level, &files).of_level(self.level)
    }

    /// Writes the mask that was made of them.
    pub fn write(&self, out: &OsStr, made: &[u8]) -> Done {
        write(&self.inputs, &[(out, made)], "")
    }
}

/// The level at which slices have this length, `unit` × 4^level. Where none has, the next one or
/// the highest: the library then refuses the length.
pub fn level_of(length: usize, unit: usize) -> u32 {
    (0..MAX_MASK_LEVEL).find(|level| unit << (2 * level) >= length).unwrap_or(MAX_MASK_LEVEL)
}

/// A file that was read, its length, and the most that is read of such a file.
pub type Length<'a> = (&'a OsStr, usize, usize);

/// A refusal, and where it is one of length the files that have another than their level's.
pub fn lengths_told(of: Of, refusal: Refusal, level: u32, files: &[Length]) -> Trouble {
    if refusal != Refusal::Length {
        return of.refuses(refusal);
    }
    // The most is the length at the highest level.
    let needed = |most: usize| most >> (2 * MAX_MASK_LEVEL.saturating_sub(level));
    let wrong = files.iter().filter(|(_, length, most)| *length != needed(*most));
    let lengths: Vec<String> = wrong
        .map(|(place, length, most)| {
            let more = if length > most { "more than " } else { "" };
            let bytes = if *length == 1 { "byte" } else { "bytes" };
            let has = format!("has {more}{} {bytes}, not {}", length.min(most), needed(*most));
            format!("{} {has}", told(place, "standard input"))
        })
        .collect();
    of.refuses(refusal).at(&format!("level {level}: {}", lengths.join("; ")))
}

pub fn grow(words: &[OsString]) -> Done {
    rings(words, ticklocust::grow)
}

pub fn shrink(words: &[OsString]) -> Done {
    rings(words, ticklocust::shrink)
}

type Rings = fn(u32, u32, &[u8], &mut [u8], &mut [u8]) -> Result<(), Refusal>;

fn rings(words: &[OsString], call: Rings) -> Done {
    let words = Words::sort(words, &["level", "rings"])?;
    let [mask, out] = words.places(["MASK", "OUT"])?;
    let rings = words.needed("rings")?;
    let masks = Masks::read(&words, [mask])?;
    let (mut grown, mut work) = (masks.empty(), masks.empty());
    call(masks.level, rings, &masks.bytes[0], &mut grown, &mut work)
        .map_err(|refusal| masks.refused(refusal))?;
    masks.write(out, &grown)
}

pub fn join(words: &[OsString]) -> Done {
    let words = Words::sort(words, &["level"])?;
    let [a, b, out] = words.places(["A", "B", "OUT"])?;
    let masks = Masks::read(&words, [a, b])?;
    let mut joined = masks.empty();
    ticklocust::join(masks.level, &masks.bytes[0], &masks.bytes[1], &mut joined)
        .map_err(|refusal| masks.refused(refusal))?;
    masks.write(out, &joined)
}

pub fn count(words: &[OsString]) -> Done {
    let words = Words::sort(words, &["level"])?;
    let masks = Masks::read(&words, words.places(["MASK"])?)?;
    let count = ticklocust::count(masks.level, &masks.bytes[0])
        .map_err(|refusal| masks.refused(refusal))?;
    say(&masks.inputs, &format!("{count}\n"))
}

pub fn within(words: &[OsString]) -> Done {
    let words = Words::sort(words, &["level"])?;
    let masks = Masks::read(&words, words.places(["A", "B"])?)?;
    let within = ticklocust::within(masks.level, &masks.bytes[0], &masks.bytes[1])
        .map_err(|refusal| masks.refused(refusal))?;
    match within {
        Within::Yes => say(&masks.inputs, "yes\n"),
        Within::Lacking(cell) => {
            say(&masks.inputs, &format!("no {cell}\n"))?;
            Ok(ExitCode::from(NO))
        }
    }
}

pub fn fill(words: &[OsString]) -> Done {
    let words = Words::sort(words, &["level", "outside"])?;
    let [border, out] = words.places(["BORDER", "OUT"])?;
    let outside = words.needed("outside")?;
    let masks = Masks::read(&words, [border])?;
    let mut filled = masks.empty();
    ticklocust::fill(masks.level, &masks.bytes[0], outside, &mut filled)
        .map_err(|refusal| masks.refused(refusal))?;
    masks.write(out, &filled)
}

#[cfg(test)]
mod tests {
    use super::{level_of, MOST};

    #[test]
    fn a_length_says_its_level() {
        for level in 0..=8 {
            assert_eq!(level_of(1 << (2 * level), 1), level);
            assert_eq!(level_of(8 << (2 * level), 8), level);
        }
        assert_eq!((level_of(0, 1), level_of(5, 1), level_of(MOST + 1, 1)), (0, 2, 8));
    }
}
