//! What can stop a run, how it is told, and the status it gives.

use std::io::{self, Write};
use std::process::ExitCode;

use ticklocust::{Refusal, MAX_CELL_LEVEL, MAX_DAYS, MAX_MASK_LEVEL, MAX_RINGS};

/// What a subcommand comes to.
pub type Done = Result<ExitCode, Trouble>;

/// The status for the answer 'no'.
pub const NO: u8 = 1;
const TROUBLE: u8 = 2;
const REFUSED: u8 = 3;
const DATE: u8 = 4;
/// What a shell reports of a program that SIGPIPE has ended.
const PIPE: u8 = 128 + 13;

/// What stopped a run.
#[derive(Debug)]
pub enum Trouble {
    /// The call is refused, with a sentence.
    Refused(Refusal, String),
    /// The day doesn't follow the chart's date.
    Date(String),
    /// The words of the subcommand, or the text of a file, are not as they should be.
    Usage(&'static str, String),
    /// The file, or a stream in its place, can't be read or written.
    File(String, String),
    /// Whoever reads standard output has gone away. Nothing was to be written to a file.
    Pipe,
    /// The same, and files that were to be written are as they were.
    PipeBeforeFiles,
}

impl Trouble {
    /// Wrong words; `of` fills in the subcommand.
    pub fn usage(what: impl Into<String>) -> Trouble {
        Trouble::Usage("", what.into())
    }

    /// A file and what is wrong with it.
    pub fn file(place: impl Into<String>, what: impl ToString) -> Trouble {
        Trouble::File(place.into(), what.to_string())
    }

    /// The same trouble, of that subcommand.
    pub fn of(self, command: &'static str) -> Trouble {
        match self {
            Trouble::Usage("", what) => Trouble::Usage(command, what),
            other => other,
        }
    }

    /// The same trouble; where it is a refusal, its sentence ends with this in brackets.
    pub fn at(self, about: &str) -> Trouble {
        match self {
            Trouble::Refused(refusal, sentence) => {
                let told = match sentence.strip_suffix(')') {
                    Some(begun) => format!("{begun}; {about})"),
                    None => format!("{sentence} ({about})"),
                };
                Trouble::Refused(refusal, told)
            }
            other => other,
        }
    }

    /// The same trouble; where a cell is refused, its sentence names the bound of the level.
    pub fn of_level(self, level: u32) -> Trouble {
        match self {
            Trouble::Refused(Refusal::Cell, _) => {
                self.at(&format!("level {level} has {} cells", 8_u64 << (2 * level)))
            }
            other => other,
        }
    }

    /// A write to standard output, or to a stream in its place, that failed. What a pipe calls
    /// broken, a socket calls reset.
    pub fn writing(place: &str, error: &io::Error) -> Trouble {
        match error.kind() {
            io::ErrorKind::BrokenPipe | io::ErrorKind::ConnectionReset => Trouble::Pipe,
            _ => Trouble::file(place, error),
        }
    }

    /// Tells it on standard error, if that is open, and gives the status.
    pub fn tell(&self) -> ExitCode {
        let (told, status) = match self {
            Trouble::Refused(refusal, sentence) => {
                (format!("refused {}: {sentence}", refusal.number()), REFUSED)
            }
            Trouble::Date(what) => (format!("ticklocust: {what}"), DATE),
            Trouble::Usage(command, what) => {
                let space = if command.is_empty() { "" } else { " " };
                (format!("ticklocust: {what}\ntry: ticklocust help{space}{command}"), TROUBLE)
            }
            Trouble::File(place, what) => (format!("ticklocust: {place}: {what}"), TROUBLE),
            Trouble::Pipe => return ExitCode::from(PIPE),
            Trouble::PipeBeforeFiles => {
                ("ticklocust: standard output: broken pipe; no file is changed".to_string(), PIPE)
            }
        };
        let _ = writeln!(io::stderr(), "{told}");
        ExitCode::from(status)
    }
}

/// What a call is about: it says which of the two bounds of refusals 1 and 6 is meant.
#[derive(Clone, Copy)]
pub enum Of {
    Cells,
    Masks,
    Days,
}

impl Of {
    pub fn refuses(self, refusal: Refusal) -> Trouble {
        let sentence = match (refusal, self) {
            (Refusal::Level, Of::Cells) => {
                format!("the level is above {MAX_CELL_LEVEL}, the bound for cells and borders")
            }
            (Refusal::Level, _) => {
                format!("the level is above {MAX_MASK_LEVEL}, the bound for masks and charts")
            }
            (Refusal::Length, Of::Cells) => "the border has no cells".to_string(),
            (Refusal::Length, _) => {
                "a file doesn't have the length that its level needs".to_string()
            }
            (Refusal::Count, Of::Days) => format!("the limit is above {MAX_DAYS} days"),
            (Refusal::Count, _) => format!("there are more than {MAX_RINGS} rings"),
            _ => refusal.to_string(),
        };
        Trouble::Refused(refusal, sentence)
    }
}
