//! `cell`, `centre`, `step`, `code`, `touching`.

use std::ffi::{OsStr, OsString};
use std::fmt::Write;

use ticklocust::{Latitude, Longitude, Refusal, CODES};

use crate::files::Inputs;
use crate::lines;
use crate::numbers::{microdegrees, whole};
use crate::outputs::say;
use crate::trouble::{Done, Of, Trouble};
use crate::words::Words;

fn refused(level: u32) -> impl Fn(Refusal) -> Trouble {
    move |refusal| Of::Cells.refuses(refusal).of_level(level)
}

/// Prints, where nothing but standard input was read.
fn print(text: &str) -> Done {
    say(&Inputs::default(), text)
}

pub fn cell(words: &[OsString]) -> Done {
    let words = Words::sort(words, &["level", "latitude", "longitude"])?;
    let (level, named) = (words.needed("level")?, ["latitude", "longitude"]);
    if words.count() == 0 {
        let [latitude, longitude] = named.map(|name| words.value(name));
        let (latitude, longitude) = (latitude?.to_string_lossy(), longitude?.to_string_lossy());
        return print(&cell_line(level, ["--latitude", "--longitude"], [&latitude, &longitude])?);
    }
    if named.iter().any(|name| words.option(name).is_some()) {
        return Err(Trouble::usage(
            "the position is given by options or on standard input, not by both",
        ));
    }
    dash(&words)?;
    let (mut inputs, mut text) = (Inputs::default(), String::new());
    lines::each(&mut inputs, |name, line| {
        let parts: Vec<&str> = line.split_whitespace().collect();
        let [latitude, longitude] = parts[..] else {
            let what = "is a latitude and a longitude with a space between";
            return Err(Trouble::usage(format!("{name} {what}, not '{line}'")));
        };
        let names = [format!("{name}: the latitude"), format!("{name}: the longitude")];
        text += &cell_line(level, [&names[0], &names[1]], [latitude, longitude])?;
        Ok(())
    })?;
    say(&inputs, &text)
}

/// Checks that the only place is `-`.
fn dash(words: &Words) -> Result<(), Trouble> {
    match words.places(["-"])? {
        [place] if place == "-" => Ok(()),
        [place] => {
            let place = place.to_string_lossy();
            Err(Trouble::usage(format!(
                "- stands for standard input; there is no use for '{place}'"
            )))
        }
    }
}

fn cell_line(level: u32, names: [&str; 2], position: [&str; 2]) -> Result<String, Trouble> {
    let latitude = Latitude(microdegrees(names[0], position[0])?);
    let longitude = Longitude(microdegrees(names[1], position[1])?);
    // 30 beside 22.5 is far more likely to mean 30 degrees than 30 millionths of one.
    let is_degrees = |i: usize| position[i].contains('.');
    if is_degrees(0) != is_degrees(1) {
        let (degrees, other) = if is_degrees(0) { (0, 1) } else { (1, 0) };
        let (name, value) = (names[other], position[other]);
        return Err(Trouble::usage(format!(
            "{name} {value} is in millionths of a degree, and {} is in degrees: write both the \
             same way, as {value}.0 for {value} degrees",
            position[degrees]
        )));
    }
    let cell = ticklocust::cell_at(level, latitude, longitude).map_err(refused(level))?;
    Ok(format!("{cell}\n"))
}

pub fn centre(words: &[OsString]) -> Done {
    let words = Words::sort(words, &["level"])?;
    let [cell] = words.places(["CELL"])?;
    let level = words.needed("level")?;
    let centre = |name: &str, cell: &str| {
        ticklocust::centre(level, whole(name, cell)?).map_err(refused(level))
    };
    if cell != "-" {
        let (latitude, longitude) = centre("CELL", &cell.to_string_lossy())?;
        return print(&format!("latitude {latitude}\nlongitude {longitude}\n"));
    }
    let (mut inputs, mut text) = (Inputs::default(), String::new());
    lines::each(&mut inputs, |name, line| {
        let (latitude, longitude) = centre(name, line)?;
        let _ = writeln!(text, "{latitude} {longitude}");
        Ok(())
    })?;
    say(&inputs, &text)
}

pub fn step(words: &[OsString]) -> Done {
    let words = Words::sort(words, &["level"])?;
    let [cell, code] = words.places(["CELL", "CODE"])?;
    let (cell, number) = (whole("CELL", &cell.to_string_lossy())?, code_of(code)?);
    let level = words.needed("level")?;
    let to = ticklocust::step(level, cell, number).map_err(|refusal| match refusal {
        Refusal::Step => {
            let code = code.to_string_lossy();
            let sentence = format!("there is no such step: cell {cell} has no code {code}");
            Trouble::Refused(refusal, sentence)
        }
        _ => refused(level)(refusal),
    })?;
    print(&format!("{to}\n"))
}

/// A code by its letter or its number.
fn code_of(word: &OsStr) -> Result<u32, Trouble> {
    let word = word.to_string_lossy();
    let letter = (0..).zip(CODES).find(|(_, letter)| *word == letter.to_string());
    match letter {
        Some((code, _)) => Ok(code),
        None => whole("CODE", &word).map_err(|_| {
            let what = "CODE is one of t l r e w T E W, or its number 0 to 7";
            Trouble::usage(format!("{what}, not '{word}'"))
        }),
    }
}

pub fn code(words: &[OsString]) -> Done {
    let words = Words::sort(words, &["level"])?;
    let [from, to] = words.places(["FROM", "TO"])?;
    let (from, to) = (from.to_string_lossy(), to.to_string_lossy());
    let (from, to) = (whole("FROM", &from)?, whole("TO", &to)?);
    let level = words.needed("level")?;
    let code = ticklocust::code(level, from, to).map_err(|refusal| match refusal {
        Refusal::Step => Trouble::Refused(refusal, no_code(from, to)),
        _ => refused(level)(refusal),
    })?;
    let letter = CODES.get(code as usize).copied().unwrap_or('?');
    print(&format!("{code} {letter}\n"))
}

/// The sentence for two cells that no code joins.
pub fn no_code(from: u32, to: u32) -> String {
    format!("there is no such step: no code joins {from} and {to}")
}

pub fn touching(words: &[OsString]) -> Done {
    let words = Words::sort(words, &["level"])?;
    let [cell] = words.places(["CELL"])?;
    let cell = whole("CELL", &cell.to_string_lossy())?;
    let level = words.needed("level")?;
    let cells = ticklocust::touching(level, cell).map_err(refused(level))?;
    let mut text = String::new();
    for cell in cells.iter() {
        let _ = writeln!(text, "{cell}");
    }
    print(&text)
}
