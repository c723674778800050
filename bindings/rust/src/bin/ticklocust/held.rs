//! A chart's file, held by one run at a time.

use std::ffi::OsStr;
use std::fs::{self, File, TryLockError};
use std::io;
use std::os::unix::fs::MetadataExt;

use crate::chart_file::{Chart, MOST};
use crate::files::{read_from, told, Inputs};
use crate::trouble::Trouble;

/// How often a file is opened again that other runs replace at that very moment.
const TRIES: usize = 100;

/// A chart's file that no other run replaces while this value lives: it has the file's advisory
/// lock, which also ends with the program.
pub struct Held<'a> {
    pub place: &'a OsStr,
    pub file: File,
}

impl<'a> Held<'a> {
    /// Holds a file that is there. It is an error where another run holds it.
    pub fn new(place: &'a OsStr) -> Result<Held<'a>, Trouble> {
        let told = told(place, "standard input");
        if place == "-" {
            let what = "can't be locked and replaced: name the chart's file";
            return Err(Trouble::file(told, what));
        }
        let trouble = |error: io::Error| match error.kind() {
            io::ErrorKind::NotFound => {
                let way_out = "'ticklocust chart new' and 'chart import' make a chart";
                Trouble::file(&told, format!("{error}; {way_out}"))
            }
            io::ErrorKind::WouldBlock => {
                Trouble::file(&told, "another run has this chart in use; try again later")
            }
            _ => Trouble::file(&told, error),
        };
        for _ in 0..TRIES {
            if !fs::metadata(place).map_err(trouble)?.is_file() {
                return Err(Trouble::file(&told, "is not a file"));
            }
            let file = File::open(place).map_err(trouble)?;
            if lock(place, &file).map_err(trouble)? {
                return Ok(Held { place, file });
            }
        }
        Err(trouble(io::ErrorKind::WouldBlock.into()))
    }

    pub fn chart(&self) -> Result<Chart, Trouble> {
        let told = told(self.place, "");
        let bytes = read_from(&self.file, &told, MOST)?;
        Chart::decode(&bytes).map_err(|what| Trouble::file(told, what))
    }
}

/// Locks a file that was opened at a place. False if another file is there by now: the run that had
/// the lock before has replaced it.
fn lock(place: &OsStr, file: &File) -> io::Result<bool> {
    file.try_lock().map_err(|error| match error {
        TryLockError::WouldBlock => io::ErrorKind::WouldBlock.into(),
        TryLockError::Error(error) => error,
    })?;
    let (ours, there) = (file.metadata()?, fs::metadata(place)?);
    Ok((ours.dev(), ours.ino()) == (there.dev(), there.ino()))
}

/// The chart of a file that is only read. A rename replaces it whole, so no lock is needed.
pub fn read(inputs: &mut Inputs, place: &OsStr) -> Result<Chart, Trouble> {
    let bytes = inputs.read(place, MOST)?;
    Chart::decode(&bytes).map_err(|what| Trouble::file(told(place, "standard input"), what))
}

#[cfg(test)]
mod tests {
    use super::*;

    #[test]
    fn a_file_that_was_replaced_before_its_lock_is_not_held() {
        let name = format!("ticklocust-held-{}", std::process::id());
        let place = std::env::temp_dir().join(name);
        let newer = place.with_extension("newer");
        fs::write(&place, "older").unwrap();
        fs::write(&newer, "newer").unwrap();
        let opened = File::open(&place).unwrap();
        fs::rename(&newer, &place).unwrap();
        assert!(!lock(place.as_os_str(), &opened).unwrap());

        let held = Held::new(place.as_os_str()).unwrap();
        assert_eq!(io::read_to_string(&held.file).unwrap(), "newer");
        let again = lock(place.as_os_str(), &File::open(&place).unwrap());
        assert_eq!(again.unwrap_err().kind(), io::ErrorKind::WouldBlock);
        fs::remove_file(&place).unwrap();
    }
}
