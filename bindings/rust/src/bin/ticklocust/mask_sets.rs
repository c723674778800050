//! `mask mark`, `mask list`, `mask and`, `mask minus`, `mask not`.

use std::ffi::OsString;
use std::fmt::Write;

use ticklocust::{mask_len, Refusal};

use crate::files::Inputs;
use crate::lines;
use crate::masks::Masks;
use crate::numbers::whole;
use crate::outputs::{say, write};
use crate::trouble::{Done, Of, Trouble};
use crate::words::Words;

pub fn none(words: &[OsString]) -> Done {
    Words::sort(words, &[])?;
    Err(Trouble::usage("mask is followed by mark, list, and, minus or not"))
}

/// An empty mask of a level.
pub fn empty(level: u32) -> Result<Vec<u8>, Trouble> {
    let length = mask_len(level).ok_or_else(|| Of::Masks.refuses(Refusal::Level))?;
    Ok(vec![0; length])
}

/// Marks a cell.
pub fn mark_cell(mask: &mut [u8], cell: u32) -> Result<(), Trouble> {
    let byte = mask.get_mut(cell as usize / 8).ok_or_else(|| Of::Masks.refuses(Refusal::Cell))?;
    *byte |= 1 << (cell % 8);
    Ok(())
}

pub fn mark(words: &[OsString]) -> Done {
    let words = Words::sort(words, &["level"])?;
    let [out] = words.places(["OUT"])?;
    let level = words.needed("level")?;
    let mut mask = empty(level)?;
    let mut inputs = Inputs::default();
    lines::each(&mut inputs, |name, line| {
        mark_cell(&mut mask, whole(name, line)?).map_err(|trouble| trouble.of_level(level))
    })?;
    write(&inputs, &[(out, &mask)], "")
}

pub fn list(words: &[OsString]) -> Done {
    let words = Words::sort(words, &["level"])?;
    let masks = Masks::read(&words, words.places(["MASK"])?)?;
    let mask = &masks.bytes[0];
    ticklocust::count(masks.level, mask).map_err(|refusal| masks.refused(refusal))?;
    let mut text = String::new();
    for cell in (0..8 * mask.len()).filter(|cell| mask[cell / 8] >> (cell % 8) & 1 == 1) {
        let _ = writeln!(text, "{cell}");
    }
    say(&masks.inputs, &text)
}

/// A mask's complement. Every bit of a mask is a cell.
fn complement(mask: &[u8]) -> Vec<u8> {
    mask.iter().map(|byte| !byte).collect()
}

/// A and B is what is left out by joining all that A leaves out and all that B leaves out.
pub fn and(words: &[OsString]) -> Done {
    outside_join(words, complement)
}

/// A minus B is what is left out by joining all that A leaves out and B.
pub fn minus(words: &[OsString]) -> Done {
    outside_join(words, <[u8]>::to_vec)
}

fn outside_join(words: &[OsString], of_b: fn(&[u8]) -> Vec<u8>) -> Done {
    let words = Words::sort(words, &["level"])?;
    let [a, b, out] = words.places(["A", "B", "OUT"])?;
    let masks = Masks::read(&words, [a, b])?;
    let (a, b, mut joined) = (complement(&masks.bytes[0]), of_b(&masks.bytes[1]), masks.empty());
    ticklocust::join(masks.level, &a, &b, &mut joined).map_err(|refusal| masks.refused(refusal))?;
    masks.write(out, &complement(&joined))
}

pub fn not(words: &[OsString]) -> Done {
    let words = Words::sort(words, &["level"])?;
    let [mask, out] = words.places(["MASK", "OUT"])?;
    let masks = Masks::read(&words, [mask])?;
    ticklocust::count(masks.level, &masks.bytes[0]).map_err(|refusal| masks.refused(refusal))?;
    masks.write(out, &complement(&masks.bytes[0]))
}
