//! Runs that are stopped between writing and renaming.

use std::io::{self, Read, Write};
use std::os::fd::OwnedFd;
use std::os::unix::net::UnixStream;
use std::os::unix::process::ExitStatusExt;
use std::process::{Child, Command, Output, Stdio};
use std::time::{Duration, Instant};

use crate::Folder;

/// How long a run may take to do what a test waits for.
const PATIENCE: Duration = Duration::from_secs(20);

/// A run that has written its temporary file and can't print, since its standard output is full.
pub struct Blocked {
    child: Child,
    reader: UnixStream,
    filled: usize,
}

impl Blocked {
    pub fn start(folder: &Folder, words: &[&str]) -> Blocked {
        let mut command = folder.command(words);
        Blocked::run(folder, &mut command)
    }

    pub fn run(folder: &Folder, command: &mut Command) -> Blocked {
        let (reader, writer) = UnixStream::pair().unwrap();
        let filled = fill(&writer);
        let before = parts(folder).len();
        let child = command.stdout(Stdio::from(OwnedFd::from(writer))).spawn().unwrap();
        let deadline = Instant::now() + PATIENCE;
        // A chart of level 0 has 76 bytes.
        while parts(folder).iter().filter(|length| **length == 76).count() <= before {
            assert!(Instant::now() < deadline, "no temporary file");
            std::thread::sleep(Duration::from_millis(2));
        }
        Blocked { child, reader, filled }
    }

    /// Reads its output, so that it ends by itself. Gives its status and what it printed.
    pub fn release(mut self) -> (Option<i32>, String) {
        let mut out = Vec::new();
        self.reader.read_to_end(&mut out).unwrap();
        (self.child.wait().unwrap().code(), String::from_utf8(out.split_off(self.filled)).unwrap())
    }

    /// Closes the other end of its output and gives what it comes to.
    pub fn abandon(self) -> Output {
        drop(self.reader);
        self.child.wait_with_output().unwrap()
    }

    /// Ends it by a signal and gives the signal that it ended by.
    pub fn end(mut self, signal: &str) -> Option<i32> {
        self.signal(signal);
        let deadline = Instant::now() + PATIENCE;
        while Instant::now() < deadline {
            if let Some(status) = self.child.try_wait().unwrap() {
                return status.signal();
            }
            std::thread::sleep(Duration::from_millis(2));
        }
        self.child.kill().unwrap();
        panic!("{signal} doesn't end it");
    }

    pub fn signal(&self, signal: &str) {
        let kill = format!("kill -{signal} {}", self.child.id());
        assert!(Command::new("sh").args(["-c", &kill]).status().unwrap().success());
    }
}

/// Fills a socket until not one byte more can be written to it.
fn fill(mut writer: &UnixStream) -> usize {
    writer.set_nonblocking(true).unwrap();
    let (mut filled, block) = (0, [b'.'; 4096]);
    for size in [block.len(), 1] {
        loop {
            match writer.write(&block[..size]) {
                Ok(written) => filled += written,
                Err(error) if error.kind() == io::ErrorKind::WouldBlock => break,
                Err(error) => panic!("{error}"),
            }
        }
    }
    writer.set_nonblocking(false).unwrap();
    filled
}

/// The lengths of the temporary files in a folder.
pub fn parts(folder: &Folder) -> Vec<usize> {
    let all = folder.all().into_iter();
    all.filter(|(path, _)| path.extension().is_some_and(|e| e == "part"))
        .map(|(_, b)| b.len())
        .collect()
}
