//! Temporary files, which are removed however the run ends; only SIGKILL leaves one behind.

use std::ffi::c_int;
use std::fs::{self, File, OpenOptions};
use std::io;
use std::path::{Path, PathBuf};
use std::sync::{Mutex, MutexGuard, OnceLock, PoisonError};
use std::thread;

use crate::process;

/// Those that are there now. Creating, renaming and removing hold the lock, so a signal finds every
/// file either listed or not there.
static PRESENT: Mutex<Vec<PathBuf>> = Mutex::new(Vec::new());

fn present() -> MutexGuard<'static, Vec<PathBuf>> {
    PRESENT.lock().unwrap_or_else(PoisonError::into_inner)
}

/// A file under a temporary name.
pub struct Temporary(PathBuf);

impl Temporary {
    /// Creates one in a folder, under a name that no other file has.
    pub fn create(folder: &Path) -> io::Result<(Temporary, File)> {
        watch()?;
        let mut present = present();
        let mut number = present.len();
        loop {
            let path = folder.join(format!(".ticklocust-{}-{number}.part", std::process::id()));
            match OpenOptions::new().write(true).create_new(true).open(&path) {
                Ok(file) => {
                    present.push(path.clone());
                    return Ok((Temporary(path), file));
                }
                Err(error) if error.kind() == io::ErrorKind::AlreadyExists => number += 1,
                Err(error) => return Err(error),
            }
        }
    }

    /// Gives it a name that no file has.
    pub fn link(self, target: &Path) -> io::Result<()> {
        match fs::hard_link(&self.0, target) {
            Ok(()) => {
                synchronise(target);
                Ok(())
            }
            Err(error) if error.kind() == io::ErrorKind::AlreadyExists => Err(error),
            // Some file systems have no links.
            Err(_) if fs::symlink_metadata(target).is_err() => {
                rename_all(vec![(self, target)]).map_err(|(_, error)| error)
            }
            Err(_) => Err(io::ErrorKind::AlreadyExists.into()),
        }
    }
}

/// Renames files, without a signal between two of them. An error comes with the file that it is
/// about.
pub fn rename_all(ready: Vec<(Temporary, &Path)>) -> Result<(), (&Path, io::Error)> {
    let mut present = present();
    for (temporary, target) in &ready {
        if let Err(error) = fs::rename(&temporary.0, target) {
            // What is still there is removed when it is dropped.
            drop(present);
            return Err((*target, error));
        }
        present.retain(|path| *path != temporary.0);
    }
    drop(present);
    ready.iter().for_each(|(_, target)| synchronise(target));
    Ok(())
}

/// Synchronises a file's folder, so that its name outlasts a power cut. Some file systems can't do
/// that; the file is whole all the same.
fn synchronise(target: &Path) {
    let folder = target.parent().map(File::open);
    if let Some(Ok(folder)) = folder {
        let _ = folder.sync_all();
    }
}

impl Drop for Temporary {
    fn drop(&mut self) {
        let mut present = present();
        if let Some(place) = present.iter().position(|path| *path == self.0) {
            let _ = fs::remove_file(&self.0);
            present.swap_remove(place);
        }
    }
}

const SIGHUP: c_int = 1;
const SIGINT: c_int = 2;
const SIGTERM: c_int = 15;

/// Starts a thread that waits for the signals which end a run, removes the temporary files and then
/// lets the signal end it. A signal that the caller ignores, as nohup does, stays ignored.
fn watch() -> io::Result<()> {
    static STARTED: OnceLock<()> = OnceLock::new();
    if STARTED.set(()).is_err() {
        return Ok(());
    }
    let ignored = ignored_signals();
    let mut signals = vec![SIGHUP, SIGINT, SIGTERM];
    signals.retain(|signal| ignored >> (signal - 1) & 1 == 0);
    process::hold(&signals);
    let wait = move || {
        let signal = process::wait(&signals);
        // Held to the end: nothing is renamed any more.
        let present = present();
        for path in present.iter() {
            let _ = fs::remove_file(path);
        }
        process::end_by(signal)
    };
    thread::Builder::new().spawn(wait).map(drop)
}

/// The signals that are ignored, signal n as bit n - 1.
fn ignored_signals() -> u64 {
    let status = fs::read_to_string("/proc/self/status").unwrap_or_default();
    let mask = status.lines().find_map(|line| line.strip_prefix("SigIgn:"));
    mask.and_then(|mask| u64::from_str_radix(mask.trim(), 16).ok()).unwrap_or(0)
}
