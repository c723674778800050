//! What `ask` reads and answers.

use crate::calls::{answer, CALLS};
use crate::cases;
use crate::shown::Cells;
use crate::temperatures;
use crate::words::{cell, code, expanded};

fn ask(case: &str) -> Result<String, String> {
    let words: Vec<&str> = case.split(' ').collect();
    answer(words[0], &expanded(&words[1..], &[])?, Cells::Numbers)
}

#[test]
fn words_are_read_or_named() {
    assert_eq!((cell("@02323"), code("T"), code("8")), (Ok(187), Ok(5), Ok(8)));
    for wrong in ["@", "@8", "@04", "@0 1", "-1", "+1", "1x", "4294967296", "@0123012301230123"] {
        assert!(cell(wrong).unwrap_err().contains(wrong), "{wrong}");
    }
    assert!(code("x").unwrap_err().contains("tlrewTEW"));
    assert!(ask("cell 1 0").unwrap_err().starts_with("LONGITUDE is missing\nusage: cell LEVEL"));
    assert!(ask("cell 1 0 0 0").unwrap_err().starts_with("there are too many words"));
    for wrong in ["61.17", "--1", "-", "+1", "2147483648", "-2147483649"] {
        let said = ask(&format!("cell 1 {wrong} 0")).unwrap_err();
        assert!(said.starts_with("LATITUDE is not in whole millionths of a degree"), "{said}");
        assert!(said.contains(&format!("'{wrong}'")), "{said}");
    }
    assert_eq!(ask("cell 1 -2147483648 0").as_deref(), Ok("refused 2"));
    assert!(ask("nonsense").unwrap_err().starts_with("there is no call 'nonsense'"));
    assert!(ask("grow 0 1 8").unwrap_err().starts_with("a mask of level 0 has no cell 8"));
    assert!(ask("join 0 1").unwrap_err().starts_with("2 lists with / between are needed, not 1"));
    assert!(ask("tally 9 12").unwrap_err().starts_with("LEVEL is above 8"));
    assert!(ask("count 0 99999999*0").unwrap_err().starts_with("there are more than"));
}

#[test]
fn temperatures_are_written_as_they_are_read() {
    for word in ["20.0", "-5.0", "10.125", "45.0+", "45.0-", "-0.0", "0.0+", "-0.0-", "99999.875"] {
        assert_eq!(temperatures::shown(temperatures::read(word).unwrap()), word);
    }
    for word in ["nan", "inf", "-inf"] {
        assert_eq!(temperatures::shown(temperatures::read(word).unwrap()), word);
    }
    for wrong in ["", "20", "20.", ".5", "20.1", "20.500", "100000.0", "inf+", "45.0++", "--5.0"] {
        assert!(temperatures::read(wrong).is_err(), "{wrong}");
    }
}

#[test]
fn each_call_answers() {
    assert_eq!(ask("touch 1 0 31").as_deref(), Ok("apart"));
    assert_eq!(ask("codes 0 0 1 4 5").as_deref(), Ok("E refused 7 E"));
    assert_eq!(ask("path 0 0 T t E").as_deref(), Ok("4 refused 7"));
    assert_eq!(ask("day 9 0 / / 1.0 inf / 3").as_deref(), Ok("refused 1 / 1.0 inf / 3"));
    for call in &CALLS {
        assert!(ask(call.name).unwrap_err().contains(call.words), "{}", call.name);
    }
}

#[test]
fn cases_are_counted() {
    let text =
        "# a comment\n\nlist 0 1\ncount 0 list = 2\ncell 1 0 0 = @02\ncell 1 0 0 = 3\ncel 1\n";
    let (printed, verdict) = cases::run(text);
    assert_eq!((verdict.right, verdict.cases), (2, 4));
    let expected = "\
# a comment

list 0 1
ok    count 0 list = 2 (expected 2)
ok    cell 1 0 0 = @02 (expected @02)
WRONG cell 1 0 0 = 2 (expected 3)
WRONG cel 1 = (cannot be read as a case, or the answer is too long) (expected )
2 of 4
";
    assert_eq!(printed, expected);
}

#[test]
fn every_case_of_the_library_has_the_expected_answer() {
    let file = concat!(env!("CARGO_MANIFEST_DIR"), "/../crates/worked/stdin");
    let (printed, verdict) = cases::run(&std::fs::read_to_string(file).unwrap());
    let wrong: Vec<&str> = printed.lines().filter(|line| line.starts_with("WRONG")).collect();
    assert!(wrong.is_empty(), "{}", wrong.join("\n"));
    assert!(verdict.cases > 400);
}
