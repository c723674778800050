//! The files that a run reads, each within a bound, and which files they are, so that nothing is
//! written over them. `-` is standard input.

use std::ffi::OsStr;
use std::fs::{self, File, Metadata};
use std::io::{self, Read};
use std::os::fd::AsFd;
use std::os::unix::fs::MetadataExt;
use std::path::{Path, PathBuf};

use crate::process::input_was_open;
use crate::trouble::Trouble;

/// The name to tell of a place: `-` is standard input or output, as `stream` says.
pub fn told(place: &OsStr, stream: &str) -> String {
    if place == "-" {
        stream.to_string()
    } else {
        place.to_string_lossy().into_owned()
    }
}

/// Standard input or output as a file. Unlike those of the standard library, it reports that it
/// can't be written.
pub fn stream(descriptor: impl AsFd) -> io::Result<File> {
    descriptor.as_fd().try_clone_to_owned().map(File::from)
}

/// Which file a place names, by its path without links and by its device and inode, so that hard
/// links are seen too. A device or a pipe is no file that could be written over.
#[derive(Clone, Debug, Default)]
pub struct Identity {
    path: Option<PathBuf>,
    node: Option<(u64, u64)>,
}

impl Identity {
    pub fn new(path: Option<PathBuf>, about: Option<&Metadata>) -> Identity {
        match about {
            Some(about) if !about.is_file() => Identity::default(),
            _ => Identity { path, node: about.map(|about| (about.dev(), about.ino())) },
        }
    }

    /// That of a stream which may be redirected from or to a file.
    pub fn of_stream(descriptor: impl AsFd) -> Identity {
        match stream(descriptor).and_then(|file| file.metadata()) {
            Ok(about) => Identity::new(None, Some(&about)),
            Err(_) => Identity::default(),
        }
    }

    pub fn is(&self, other: &Identity) -> bool {
        self.path.is_some() && self.path == other.path
            || self.node.is_some() && self.node == other.node
    }
}

/// What a run has read.
#[derive(Default)]
pub struct Inputs {
    files: Vec<(String, Identity)>,
    standard: bool,
}

impl Inputs {
    /// The bytes of a file, or the first `most` and one more: enough to see that it is too long.
    pub fn read(&mut self, place: &OsStr, most: usize) -> Result<Vec<u8>, Trouble> {
        if place == "-" {
            self.standard_input()?;
            return read_from(io::stdin(), "standard input", most);
        }
        let told = told(place, "");
        let file = File::open(place).map_err(|error| Trouble::file(&told, error))?;
        self.note(Path::new(place), &file)?;
        read_from(file, &told, most)
    }

    /// Notes that standard input is read, which is done once.
    pub fn standard_input(&mut self) -> Result<(), Trouble> {
        if self.standard {
            return Err(Trouble::usage("standard input can stand for one file only"));
        }
        if !input_was_open() {
            return Err(Trouble::file("standard input", "is closed"));
        }
        self.standard = true;
        self.files.push(("standard input".to_string(), Identity::of_stream(io::stdin())));
        Ok(())
    }

    /// Notes a file that is read.
    pub fn note(&mut self, path: &Path, file: &File) -> Result<(), Trouble> {
        let told = path.to_string_lossy().into_owned();
        let about = file.metadata().map_err(|error| Trouble::file(&told, error))?;
        self.files.push((told, Identity::new(fs::canonicalize(path).ok(), Some(&about))));
        Ok(())
    }

    /// The name of the input that is this file.
    pub fn find(&self, identity: &Identity) -> Option<&str> {
        self.files.iter().find(|(_, input)| input.is(identity)).map(|(told, _)| told.as_str())
    }
}

/// At most `most` bytes and one more.
pub fn read_from(from: impl Read, told: &str, most: usize) -> Result<Vec<u8>, Trouble> {
    let mut bytes = Vec::new();
    let read = from.take(most as u64 + 1).read_to_end(&mut bytes);
    read.map_err(|error| Trouble::file(told, error))?;
    Ok(bytes)
}
