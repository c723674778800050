//! Answers calls by the model, from a shell or from a file of cases. It never links the library.

mod calls;
mod cases;
mod shown;
mod temperatures;
#[cfg(test)]
mod tests;
mod words;

use std::io::{Read as _, Write as _};
use std::process::ExitCode;

use shown::Cells;

const HEAD: &str = "\
Answers calls by the model, the second program, which is written from docs/RULES.md.
  model/ask CALL WORDS              answers one call
  model/ask --addresses CALL WORDS  the same, with cells as addresses
  model/ask --cases FILE            answers the cases of a file, - for standard input
";
const TAIL: &str = "
Latitudes and longitudes are in millionths of a degree. A cell is its number, or @ and its address,
as @02323. A code is one of t l r e w T E W, or its number. Masks are given by their marked cells;
'long' after them makes the mask a byte too long. A temperature has degrees and eighths, as 20.0 or
10.125; 45.0+ is the next higher 32-bit number, 45.0- the next lower; nan, inf and -inf are taken too.
8*20.0 is the word 20.0 eight times. ROOM is the length of the slice to write.

A case is a line with a call, an equals sign and the expected answer; lines that begin with # are
comments. crates/worked/stdin has cases of every call.

Status: 0 when the call is answered ('refused N' is an answer) and all cases have the expected
answer, 1 when a case has another one, 2 when a word or a file can't be read.

  $ model/ask cell 8 61170000 -117000000
  150803
  $ model/ask grow 0 1 0
  0 1 2 3 4 5 7
  $ model/ask reading 0 3 8*20.0 / 8*1
  carried 20.0 days 1
";

fn main() -> ExitCode {
    let words: Vec<String> = std::env::args().skip(1).collect();
    let words: Vec<&str> = words.iter().map(String::as_str).collect();
    let done = match words[..] {
        [] | ["--help" | "-h" | "help"] => print(&help()).map(|()| true),
        ["--cases", file] => answer_cases(file),
        ["--addresses", call, ref words @ ..] => ask(call, words, Cells::Addresses),
        [option, ..] if option.starts_with('-') => {
            Err(format!("{option} is no option, or its words are wrong: see model/ask --help"))
        }
        [call, ref words @ ..] => ask(call, words, Cells::Numbers),
    };
    match done {
        Ok(true) => ExitCode::SUCCESS,
        Ok(false) => ExitCode::from(1),
        Err(reason) => {
            eprintln!("model/ask: {reason}");
            ExitCode::from(2)
        }
    }
}

fn help() -> String {
    let line = |call: &calls::Call| {
        let usage = format!("{} {}", call.name, call.words);
        format!("  {usage:<40}  {}\n", call.gives)
    };
    let calls: String = calls::CALLS.iter().map(line).collect();
    format!("{HEAD}\nCalls:\n{calls}{TAIL}")
}

fn ask(call: &str, words: &[&str], cells: Cells) -> Result<bool, String> {
    let words = words::expanded(words, &[])?;
    print(&format!("{}\n", calls::answer(call, &words, cells)?)).map(|()| true)
}

fn answer_cases(file: &str) -> Result<bool, String> {
    let mut bytes = Vec::new();
    let read = match file {
        "-" => std::io::stdin().read_to_end(&mut bytes).map(|_| ()),
        _ => std::fs::read(file).map(|all| bytes = all),
    };
    read.map_err(|error| format!("{file}: {error}"))?;
    let (printed, verdict) = cases::run(&String::from_utf8_lossy(&bytes));
    print(&printed)?;
    if verdict.cases == 0 {
        return Err(format!("{file} has no cases"));
    }
    Ok(verdict.right == verdict.cases)
}

fn print(text: &str) -> Result<(), String> {
    let mut out = std::io::stdout();
    let printed = out.write_all(text.as_bytes()).and_then(|()| out.flush());
    printed.map_err(|error| format!("standard output: {error}"))
}
