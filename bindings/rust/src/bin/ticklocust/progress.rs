//! How far a run of many days is: one line on standard error, where that is a terminal.

use std::io::{self, IsTerminal, Write};
use std::time::{Duration, Instant};

use crate::dates::Date;

pub struct Progress {
    days: usize,
    done: usize,
    shown: Option<Instant>,
    silent: bool,
}

impl Progress {
    pub fn new(days: usize) -> Progress {
        let silent = days < 2 || !io::stderr().is_terminal();
        Progress { days, done: 0, shown: None, silent }
    }

    /// Shows the day that is begun, at most ten times a second.
    pub fn show(&mut self, date: Date) {
        self.done += 1;
        let soon = self.shown.is_some_and(|shown| shown.elapsed() < Duration::from_millis(100));
        if self.silent || soon {
            return;
        }
        self.shown = Some(Instant::now());
        let (done, days) = (self.done, self.days);
        let _ = write!(io::stderr(), "\r\x1b[Kday {done} of {days}: {date}");
    }
}

/// The line is removed when the run ends, however it ends.
impl Drop for Progress {
    fn drop(&mut self) {
        if self.shown.is_some() {
            let _ = write!(io::stderr(), "\r\x1b[K");
        }
    }
}
