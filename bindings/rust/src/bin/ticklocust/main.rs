//! The command `ticklocust`: the library's calls on files. `help/mod.rs` documents its statuses.
//! Unsafe code is in `process.rs` alone.

#![deny(unsafe_code)]

mod borders;
mod chart_file;
mod charts;
mod crc;
mod dates;
mod day;
mod days;
mod files;
mod held;
mod help;
mod lines;
mod mask_sets;
mod masks;
mod numbers;
mod outputs;
mod places;
mod process;
mod progress;
mod temporary;
mod trouble;
mod words;

use std::ffi::{OsStr, OsString};
use std::process::ExitCode;

use trouble::{Done, Trouble};

/// A subcommand: its name, its help, and what it does with the words after its name.
struct Command {
    name: &'static str,
    help: &'static str,
    run: fn(&[OsString]) -> Done,
}

/// Where one name begins with another, the longer one comes first.
#[rustfmt::skip]
const COMMANDS: [Command; 29] = [
    Command { name: "cell", help: help::places::CELL, run: places::cell },
    Command { name: "centre", help: help::places::CENTRE, run: places::centre },
    Command { name: "step", help: help::places::STEP, run: places::step },
    Command { name: "code", help: help::places::CODE, run: places::code },
    Command { name: "touching", help: help::places::TOUCHING, run: places::touching },
    Command { name: "grow", help: help::masks::GROW, run: masks::grow },
    Command { name: "shrink", help: help::masks::SHRINK, run: masks::shrink },
    Command { name: "join", help: help::masks::JOIN, run: masks::join },
    Command { name: "count", help: help::masks::COUNT, run: masks::count },
    Command { name: "within", help: help::masks::WITHIN, run: masks::within },
    Command { name: "fill", help: help::masks::FILL, run: masks::fill },
    Command { name: "mask mark", help: help::mask_sets::MARK, run: mask_sets::mark },
    Command { name: "mask list", help: help::mask_sets::LIST, run: mask_sets::list },
    Command { name: "mask and", help: help::mask_sets::AND, run: mask_sets::and },
    Command { name: "mask minus", help: help::mask_sets::MINUS, run: mask_sets::minus },
    Command { name: "mask not", help: help::mask_sets::NOT, run: mask_sets::not },
    Command { name: "mask", help: help::mask_sets::MASK, run: mask_sets::none },
    Command { name: "border read", help: help::borders::READ, run: borders::read },
    Command { name: "border write", help: help::borders::WRITE, run: borders::write },
    Command { name: "border mask", help: help::borders::MASK, run: borders::mask },
    Command { name: "border", help: help::borders::BORDER, run: borders::none },
    Command { name: "chart new", help: help::charts::NEW, run: charts::new },
    Command { name: "chart import", help: help::charts::IMPORT, run: charts::import },
    Command { name: "chart export", help: help::charts::EXPORT, run: charts::export },
    Command { name: "chart info", help: help::charts::INFO, run: charts::info },
    Command { name: "chart list", help: help::charts::LIST, run: charts::list },
    Command { name: "chart", help: help::charts::CHART, run: charts::none },
    Command { name: "day", help: help::days::DAY, run: day::day },
    Command { name: "reading", help: help::charts::READING, run: charts::reading },
];

fn main() -> ExitCode {
    let words: Vec<OsString> = std::env::args_os().skip(1).collect();
    run(&words).unwrap_or_else(|trouble| trouble.tell())
}

fn run(words: &[OsString]) -> Done {
    let Some(first) = words.first() else {
        return Err(Trouble::usage("no subcommand is given"));
    };
    if first == "--version" {
        if let Some(more) = words.get(1) {
            let more = more.to_string_lossy();
            return Err(Trouble::usage(format!("'{more}' is one word too many")));
        }
        return say(&format!("ticklocust {}\n", env!("CARGO_PKG_VERSION")));
    }
    if asks_help(first) || first == "help" {
        let words: Vec<OsString> =
            words[1..].iter().filter(|word| !asks_help(word)).cloned().collect();
        return say(topic(&words)?);
    }
    let Some((command, rest)) = find(words) else {
        return Err(Trouble::usage(format!("there is no subcommand '{}'", joined(&words[..1]))));
    };
    if rest.iter().take_while(|word| *word != "--").any(|word| asks_help(word)) {
        return say(command.help);
    }
    (command.run)(rest).map_err(|trouble| trouble.of(command.name))
}

fn say(text: &str) -> Done {
    outputs::say(&files::Inputs::default(), text)
}

fn asks_help(word: &OsStr) -> bool {
    word == "--help" || word == "-h"
}

fn joined(words: &[OsString]) -> String {
    words.join(OsStr::new(" ")).to_string_lossy().into_owned()
}

/// The help on the subcommand, or on the subject, that all of these words name.
fn topic(words: &[OsString]) -> Result<&'static str, Trouble> {
    match (words, find(words)) {
        ([], _) => Ok(help::ALL),
        ([word], _) if word == "files" => Ok(help::files::FILES),
        (_, Some((command, []))) => Ok(command.help),
        _ => Err(Trouble::usage(format!("there is no help on '{}'", joined(words)))),
    }
}

/// The subcommand that the words begin with, and the words after it.
fn find(words: &[OsString]) -> Option<(&'static Command, &[OsString])> {
    COMMANDS.iter().find_map(|command| {
        let mut rest = words;
        for part in command.name.split(' ') {
            rest = rest.strip_prefix(&[OsString::from(part)])?;
        }
        Some((command, rest))
    })
}
