//! What a run writes. `-` is standard output.

use std::ffi::OsStr;
use std::fs::{self, OpenOptions};
use std::io::{self, Write};
use std::os::unix::fs::{fchown, MetadataExt};
use std::path::{Path, PathBuf};
use std::process::ExitCode;

use crate::files::{stream, told, Identity, Inputs};
use crate::process::output_was_open;
use crate::temporary::{rename_all, Temporary};
use crate::trouble::{Done, Trouble};

/// Prints what a run without other outputs has to say.
pub fn say(inputs: &Inputs, text: &str) -> Done {
    write(inputs, &[], text)
}

/// Writes a run's files, each whole or not at all, and prints a text. The files are first written
/// under temporary names, then streams and the text are written, and the renames come last. So a
/// full disk, a missing folder or a broken pipe leaves every file as it was.
pub fn write(inputs: &Inputs, files: &[(&OsStr, &[u8])], text: &str) -> Done {
    let targets = targets(inputs, files, text)?;
    let ready = prepare_all(&targets)?;
    let files = !ready.is_empty();
    for target in &targets {
        target.print(files).map_err(|error| match Trouble::writing(&target.told, &error) {
            Trouble::Pipe if files => Trouble::PipeBeforeFiles,
            trouble => trouble,
        })?;
    }
    rename_all(ready).map_err(|(path, error)| Trouble::file(path.to_string_lossy(), error))?;
    Ok(ExitCode::SUCCESS)
}

/// Writes one file that must not be there yet.
pub fn write_new(inputs: &Inputs, place: &OsStr, bytes: &[u8]) -> Done {
    let targets = targets(inputs, &[(place, bytes)], "")?;
    let mut ready = prepare_all(&targets)?;
    let Some((temporary, path)) = ready.pop() else {
        return write(inputs, &[(place, bytes)], "");
    };
    temporary.link(path).map_err(|error| match error.kind() {
        io::ErrorKind::AlreadyExists => Trouble::file(
            told(place, ""),
            "is there already; remove it first, or name another file",
        ),
        _ => Trouble::file(told(place, ""), error),
    })?;
    Ok(ExitCode::SUCCESS)
}

/// Checks that no output is one of the inputs and that no two are the same file.
pub fn apart(inputs: &Inputs, files: &[(&OsStr, &[u8])], text: &str) -> Result<(), Trouble> {
    targets(inputs, files, text).map(drop)
}

/// Bytes and where they go.
struct Target<'a> {
    told: String,
    goal: Goal<'a>,
    identity: Identity,
    bytes: &'a [u8],
}

enum Goal<'a> {
    /// A file, by its path without links.
    File(PathBuf),
    /// A device or a pipe.
    Stream(&'a OsStr),
    StandardOutput,
}

/// The targets of the outputs, of which the text is one.
fn targets<'a>(
    inputs: &Inputs,
    files: &[(&'a OsStr, &'a [u8])],
    text: &'a str,
) -> Result<Vec<Target<'a>>, Trouble> {
    let text = (!text.is_empty()).then_some((OsStr::new("-"), text.as_bytes()));
    let mut targets: Vec<Target> = Vec::new();
    for (place, bytes) in files.iter().copied().chain(text) {
        let told = told(place, "standard output");
        let (goal, identity) = goal(place).map_err(|error| Trouble::file(&told, error))?;
        if let Some(input) = inputs.find(&identity) {
            let what = format!("is also read ({input}): name another file to write");
            return Err(Trouble::file(told, what));
        }
        let target = Target { told, goal, identity, bytes };
        if targets.iter().any(|other| other.is(&target)) {
            return Err(Trouble::file(target.told, "can be written once only: name another file"));
        }
        targets.push(target);
    }
    Ok(targets)
}

fn goal(place: &OsStr) -> io::Result<(Goal<'_>, Identity)> {
    let standard = Identity::of_stream(io::stdout());
    if place == "-" {
        return Ok((Goal::StandardOutput, standard));
    }
    let path = match fs::metadata(place) {
        Ok(about) if about.is_file() => fs::canonicalize(place)?,
        Ok(about) if about.is_dir() => return Err(io::Error::other("is a folder")),
        Ok(_) => return Ok((Goal::Stream(place), Identity::default())),
        Err(error) if error.kind() == io::ErrorKind::NotFound => new_path(Path::new(place))?,
        Err(error) => return Err(error),
    };
    let identity = Identity::new(Some(path.clone()), fs::metadata(&path).ok().as_ref());
    // As /dev/stdout, whose file may have more in it than this run's output.
    let goal = if identity.is(&standard) { Goal::StandardOutput } else { Goal::File(path) };
    Ok((goal, identity))
}

/// The path, without links, of a file that isn't there yet.
fn new_path(path: &Path) -> io::Result<PathBuf> {
    let name = path.file_name().ok_or(io::ErrorKind::NotFound)?;
    let folder = path.parent().filter(|folder| !folder.as_os_str().is_empty());
    Ok(fs::canonicalize(folder.unwrap_or(Path::new(".")))?.join(name))
}

impl Target<'_> {
    fn is(&self, other: &Target) -> bool {
        let standard = |target: &Target| matches!(target.goal, Goal::StandardOutput);
        standard(self) && standard(other) || self.identity.is(&other.identity)
    }

    /// Writes what doesn't go to a file. Before files are renamed it has to be safe: where standard
    /// output is a file, a full disk may show only when that is synchronised.
    fn print(&self, safe: bool) -> io::Result<()> {
        match self.goal {
            _ if self.bytes.is_empty() => Ok(()),
            Goal::File(_) => Ok(()),
            Goal::Stream(place) => {
                OpenOptions::new().write(true).open(place)?.write_all(self.bytes)
            }
            Goal::StandardOutput if !output_was_open() => Err(io::Error::other("is closed")),
            Goal::StandardOutput => {
                let mut output = stream(io::stdout())?;
                output.write_all(self.bytes)?;
                if safe && output.metadata()?.is_file() {
                    output.sync_all()?;
                }
                Ok(())
            }
        }
    }
}

/// Writes the files under temporary names.
fn prepare_all<'a>(targets: &'a [Target]) -> Result<Vec<(Temporary, &'a Path)>, Trouble> {
    let mut ready = Vec::new();
    for target in targets {
        if let Goal::File(path) = &target.goal {
            let temporary = prepare(path, target.bytes);
            let temporary = temporary.map_err(|error| Trouble::file(&target.told, error))?;
            ready.push((temporary, path.as_path()));
        }
    }
    Ok(ready)
}

/// Writes the bytes under a temporary name beside the target, with the target's permissions and, as
/// far as that is allowed, its owner.
fn prepare(target: &Path, bytes: &[u8]) -> io::Result<Temporary> {
    let folder = target.parent().unwrap_or(Path::new("/"));
    let (temporary, mut file) = Temporary::create(folder)?;
    file.write_all(bytes)?;
    if let Ok(about) = fs::metadata(target) {
        let _ = fchown(&file, Some(about.uid()), Some(about.gid()));
        file.set_permissions(about.permissions())?;
    }
    file.sync_all()?;
    Ok(temporary)
}
