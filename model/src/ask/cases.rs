//! A file of cases, in the language of crates/worked/stdin: each line a call, an equals sign and the
//! expected answer. What is printed has the form that target/bin/worked prints, line for line.

use crate::calls::answer;
use crate::shown::Cells;
use crate::words::expanded;

const UNREADABLE: &str = "(cannot be read as a case, or the answer is too long)";

/// The cases, and those whose answer was the expected one.
#[derive(Default)]
pub struct Verdict {
    pub right: usize,
    pub cases: usize,
}

/// Answers all lines of a text: what is printed, and the verdict.
pub fn run(text: &str) -> (String, Verdict) {
    let mut out = String::new();
    let mut verdict = Verdict::default();
    let mut list = Vec::new();
    for line in text.lines() {
        if let Some(words) = line.strip_prefix("list") {
            list = expanded(&split(words), &[]).unwrap_or_default();
        }
        if line.is_empty() || line.starts_with('#') || line.starts_with("list") {
            out.extend([line, "\n"]);
            continue;
        }
        let (case, expected) = line.split_once('=').unwrap_or((line, ""));
        let (case, expected) = (case.trim_end_matches(' '), expected.trim_end());
        let expected = expected.strip_prefix(' ').unwrap_or(expected);
        let said = case_answer(case, expected, &list);
        let right = said == expected;
        let word = if right { "ok   " } else { "WRONG" };
        out += &format!("{word} {case} = {said} (expected {expected})\n");
        verdict.right += usize::from(right);
        verdict.cases += 1;
    }
    out += &format!("{} of {}\n", verdict.right, verdict.cases);
    (out, verdict)
}

/// Cells are answered as addresses where the expected answer has one.
fn case_answer(case: &str, expected: &str, list: &[String]) -> String {
    let cells = if expected.contains('@') { Cells::Addresses } else { Cells::Numbers };
    let (name, words) = case.split_once(' ').unwrap_or((case, ""));
    let said = expanded(&split(words), list).and_then(|words| answer(name, &words, cells));
    said.unwrap_or_else(|_| UNREADABLE.into())
}

fn split(words: &str) -> Vec<&str> {
    words.split(' ').filter(|word| !word.is_empty()).collect()
}
