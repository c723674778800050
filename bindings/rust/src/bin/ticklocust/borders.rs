//! `border read`, `border write`, `border mask`. The text of a border is what the cell lister
//! prints: `level K` and one cell number a line.

use std::ffi::{OsStr, OsString};
use std::fmt::Write;

use ticklocust::{Border, Refusal, MAX_BORDER_BYTES, MAX_BORDER_CELLS};

use crate::files::{told, Inputs};
use crate::mask_sets::{empty, mark_cell};
use crate::numbers::whole;
use crate::outputs::write as write_files;
use crate::places::no_code;
use crate::trouble::{Done, Of, Trouble};
use crate::words::Words;

/// The most bytes of a border's text: some twenty times what the longest border needs.
const MOST_TEXT: usize = 1 << 20;

pub fn none(words: &[OsString]) -> Done {
    Words::sort(words, &[])?;
    Err(Trouble::usage("border is followed by read, write or mask"))
}

pub fn read(words: &[OsString]) -> Done {
    let words = Words::sort(words, &[])?;
    let (stored, text) = match words.count() {
        0 | 1 => (words.places(["STORED"])?[0], OsStr::new("-")),
        _ => {
            let [stored, text] = words.places(["STORED", "TEXT"])?;
            (stored, text)
        }
    };
    let (mut inputs, mut cells) = (Inputs::default(), [0; MAX_BORDER_CELLS]);
    let border = read_stored(&mut inputs, stored, &mut cells)?;
    write_files(&inputs, &[(text, text_of(border).as_bytes())], "")
}

fn read_stored<'a>(
    inputs: &mut Inputs,
    stored: &OsStr,
    cells: &'a mut [u32],
) -> Result<Border<'a>, Trouble> {
    let bytes = inputs.read(stored, MAX_BORDER_BYTES)?;
    ticklocust::border_read(&bytes, cells).map_err(|refusal| Of::Cells.refuses(refusal))
}

fn text_of(border: Border) -> String {
    let mut text = format!("level {}\n", border.level);
    for cell in border.cells {
        let _ = writeln!(text, "{cell}");
    }
    text
}

pub fn mask(words: &[OsString]) -> Done {
    let words = Words::sort(words, &[])?;
    let [stored, out] = words.places(["STORED", "OUT"])?;
    let (mut inputs, mut cells) = (Inputs::default(), [0; MAX_BORDER_CELLS]);
    let border = read_stored(&mut inputs, stored, &mut cells)?;
    let mut mask = empty(border.level)?;
    border.cells.iter().try_for_each(|cell| mark_cell(&mut mask, *cell))?;
    write_files(&inputs, &[(out, &mask)], "")
}

pub fn write(words: &[OsString]) -> Done {
    let words = Words::sort(words, &["level"])?;
    let [text, stored] = words.places(["TEXT", "STORED"])?;
    let given = words.number("level")?;
    let mut inputs = Inputs::default();
    let bytes = inputs.read(text, MOST_TEXT)?;
    if bytes.len() > MOST_TEXT {
        return Err(Trouble::file(told(text, "standard input"), "is too long for a border's text"));
    }
    let text = Text::parse(&bytes)?;
    let Some(level) = given.or(text.level) else {
        return Err(Trouble::usage("the text has no line 'level K', and --level is not given"));
    };
    let mut room = [0; MAX_BORDER_BYTES];
    let stored_form = ticklocust::border_write(level, &text.cells, &mut room)
        .map_err(|refusal| text.refused(level, refusal))?;
    write_files(&inputs, &[(stored, stored_form)], "")
}

/// The text of a border: its level, if that is there, and its cells with their lines.
#[derive(Debug, Default, PartialEq)]
struct Text {
    level: Option<u32>,
    cells: Vec<u32>,
    lines: Vec<usize>,
}

impl Text {
    fn parse(bytes: &[u8]) -> Result<Text, Trouble> {
        let letters = std::str::from_utf8(bytes)
            .map_err(|_| Trouble::usage("the text of a border is in plain letters and digits"))?;
        let mut text = Text::default();
        for (line, number) in letters.lines().map(str::trim).zip(1..) {
            if line.is_empty() {
                continue;
            }
            let name = format!("line {number}");
            match line.strip_prefix("level ") {
                Some(value) if text.level.is_none() && text.cells.is_empty() => {
                    text.level = Some(whole(&name, value.trim())?);
                }
                _ => {
                    text.cells.push(whole(&name, line)?);
                    text.lines.push(number);
                }
            }
        }
        Ok(text)
    }

    /// A refusal of these cells, with the line that it is about.
    fn refused(&self, level: u32, refusal: Refusal) -> Trouble {
        let cells = &self.cells;
        let line = |cell: usize| format!("line {}", self.lines[cell]);
        let trouble = Of::Cells.refuses(refusal).of_level(level);
        match refusal {
            Refusal::Cell => {
                let cell = cells.iter().position(|cell| ticklocust::centre(level, *cell).is_err());
                trouble.at(&line(cell.unwrap_or_default()))
            }
            Refusal::Step => {
                let none = |pair: &[u32]| ticklocust::code(level, pair[0], pair[1]).is_err();
                let from = cells.windows(2).position(none).unwrap_or_default();
                let sentence = no_code(cells[from], cells[from + 1]);
                Trouble::Refused(refusal, sentence).at(&line(from + 1))
            }
            Refusal::Codes => trouble.at(&line(MAX_BORDER_CELLS)),
            _ => trouble,
        }
    }
}

#[cfg(test)]
mod tests {
    use super::*;

    #[test]
    fn the_text_comes_back() {
        let border = Border { level: 4, cells: &[0, 13, 3] };
        assert_eq!(text_of(border), "level 4\n0\n13\n3\n");
        let text = Text::parse(text_of(border).as_bytes()).unwrap();
        assert_eq!((text.level, &text.cells[..]), (Some(4), border.cells));
        assert_eq!(text.lines, [2, 3, 4]);
    }

    #[test]
    fn wrong_texts_are_told() {
        for wrong in
            [&b"level x\n0\n"[..], b"0\nlevel 4\n", b"level 4\nlevel 4\n", b"-1\n", b"\xff"]
        {
            assert!(matches!(Text::parse(wrong), Err(Trouble::Usage(..))), "{wrong:?}");
        }
        let text = Text { level: None, cells: vec![7], lines: vec![2] };
        assert_eq!(Text::parse(b"\n 7 \r\n").unwrap(), text);
    }
}
