//! The words of a subcommand: options and their values, and the places of files and numbers.

use std::ffi::{OsStr, OsString};
use std::os::unix::ffi::OsStrExt;

use crate::dates::Date;
use crate::numbers::whole;
use crate::trouble::Trouble;

/// The words, sorted out.
#[derive(Debug)]
pub struct Words {
    options: Vec<(&'static str, OsString)>,
    places: Vec<OsString>,
}

impl Words {
    /// Sorts the words, given the names of the options, each of which has a value. `--name value`
    /// and `--name=value` are the same; after `--` all words are places.
    pub fn sort(words: &[OsString], options: &[&'static str]) -> Result<Words, Trouble> {
        let mut sorted = Words { options: Vec::new(), places: Vec::new() };
        let mut words = words.iter();
        while let Some(word) = words.next() {
            if word == "--" {
                sorted.places.extend(words.by_ref().cloned());
                break;
            }
            let Some(named) = word.as_bytes().strip_prefix(b"--") else {
                sorted.places.push(word.clone());
                continue;
            };
            let mut parts = named.splitn(2, |byte| *byte == b'=').map(OsStr::from_bytes);
            let (name, value) = (parts.next().unwrap_or_default(), parts.next());
            let Some(option) = options.iter().find(|option| **option == name) else {
                let name = name.to_string_lossy();
                return Err(Trouble::usage(format!("there is no option '--{name}' here")));
            };
            if sorted.option(option).is_some() {
                return Err(Trouble::usage(format!("--{option} is given twice")));
            }
            let Some(value) = value.map(OsString::from).or_else(|| words.next().cloned()) else {
                return Err(Trouble::usage(format!("--{option} has no value")));
            };
            sorted.options.push((option, value));
        }
        Ok(sorted)
    }

    /// The value of an option.
    pub fn option(&self, name: &str) -> Option<&OsStr> {
        self.options.iter().find(|(option, _)| *option == name).map(|(_, value)| value.as_os_str())
    }

    /// The value of an option that has to be given.
    pub fn value(&self, name: &str) -> Result<&OsStr, Trouble> {
        self.option(name).ok_or_else(|| Trouble::usage(format!("--{name} is missing")))
    }

    /// The whole number of an option, if it is given.
    pub fn number(&self, name: &str) -> Result<Option<u32>, Trouble> {
        let number = |value: &OsStr| whole(&format!("--{name}"), &value.to_string_lossy());
        self.option(name).map(number).transpose()
    }

    /// The whole number of an option that has to be given.
    pub fn needed(&self, name: &str) -> Result<u32, Trouble> {
        self.value(name)?;
        Ok(self.number(name)?.unwrap_or_default())
    }

    /// The date of an option that has to be given.
    pub fn date(&self, name: &str) -> Result<Date, Trouble> {
        Date::of(name, self.value(name)?)
    }

    /// The first place.
    pub fn first(&self) -> Option<&OsStr> {
        self.places.first().map(OsString::as_os_str)
    }

    /// How many places there are.
    pub fn count(&self) -> usize {
        self.places.len()
    }

    /// The places, which are exactly those named.
    pub fn places<const N: usize>(&self, names: [&str; N]) -> Result<[&OsStr; N], Trouble> {
        if let Some(more) = self.places.get(N) {
            let more = more.to_string_lossy();
            return Err(Trouble::usage(format!("'{more}' is one word too many")));
        }
        if let Some(name) = names.get(self.places.len()) {
            return Err(Trouble::usage(format!("{name} is missing")));
        }
        Ok(std::array::from_fn(|i| self.places[i].as_os_str()))
    }
}

#[cfg(test)]
mod tests {
    use super::*;

    fn sorted(words: &[&str]) -> Result<Words, Trouble> {
        let words: Vec<OsString> = words.iter().map(OsString::from).collect();
        Words::sort(&words, &["level", "rings"])
    }

    #[test]
    fn options_stand_anywhere() {
        let words = sorted(&["a", "--level", "3", "-", "--rings=2", "--", "--b"]).unwrap();
        assert_eq!(words.number("level").unwrap(), Some(3));
        assert_eq!(words.needed("rings").unwrap(), 2);
        assert_eq!(words.places(["A", "B", "C"]).unwrap(), ["a", "-", "--b"]);
    }

    #[test]
    fn wrong_words_are_told() {
        for wrong in [&["--levle", "3"][..], &["--level"], &["--level=1", "--level=2"]] {
            assert!(matches!(sorted(wrong), Err(Trouble::Usage(..))), "{wrong:?}");
        }
        let words = sorted(&["a"]).unwrap();
        assert!(words.places(["A", "B"]).is_err() && words.places([]).is_err());
        assert!(words.needed("rings").is_err());
    }
}
