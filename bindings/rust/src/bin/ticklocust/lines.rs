//! The lines of standard input.

use std::io::{self, BufRead, Read};

use crate::files::Inputs;
use crate::trouble::Trouble;

/// The most bytes of a line, so that what has no lines is seen at once.
const MOST: u64 = 200;

/// Hands every line that isn't blank to `take`, after its name, 'line N', which the sentence of a
/// refusal has too.
pub fn each(
    inputs: &mut Inputs,
    mut take: impl FnMut(&str, &str) -> Result<(), Trouble>,
) -> Result<(), Trouble> {
    inputs.standard_input()?;
    let mut input = io::stdin().lock();
    let mut bytes = Vec::new();
    for number in 1.. {
        let name = format!("line {number}");
        bytes.clear();
        let read = input.by_ref().take(MOST).read_until(b'\n', &mut bytes);
        if read.map_err(|error| Trouble::file("standard input", error))? == 0 {
            break;
        }
        let whole = bytes.ends_with(b"\n") || bytes.len() < MOST as usize;
        let Some(line) = std::str::from_utf8(&bytes).ok().filter(|_| whole) else {
            let what = format!("{name} is not a line of numbers");
            return Err(Trouble::file("standard input", what));
        };
        if !line.trim().is_empty() {
            take(&name, line.trim()).map_err(|trouble| trouble.at(&name))?;
        }
    }
    Ok(())
}
