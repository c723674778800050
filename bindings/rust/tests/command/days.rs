//! `day`: one day, folders of days, dates.

use std::fs;

use crate::charts::floats;
use crate::Folder;

/// A level 0 chart `c` of 21.0, all fresh on 2026-03-08; a day of 16.0 in `news` with cloud over
/// cell 0 in `cloud`, and nothing in `clear`.
pub fn begun() -> Folder {
    begun_on("2026-03-08")
}

fn begun_on(date: &str) -> Folder {
    let folder = Folder::new();
    folder.put("t", &floats(&[21.0; 8]));
    folder.put("a", &[0; 8]);
    folder.prints(&format!("chart import --date {date} t a c"), "");
    folder.put("news", &floats(&[16.0, 16.5, 16.0, 16.0, 16.0, 16.0, f32::NAN, 45.5]));
    folder.put("cloud", &[1]);
    folder.put("clear", &[0]);
    folder
}

/// What a chart holds.
pub fn held(folder: &Folder, chart: &str) -> (Vec<u8>, Vec<u8>) {
    folder.prints(&format!("chart export {chart} got-t got-a"), "");
    (folder.get("got-t"), folder.get("got-a"))
}

/// Puts a day of one temperature and this cloud into the folder `days`.
pub fn put_day(folder: &Folder, date: &str, temperature: f32, cloud: u8) {
    let _ = fs::create_dir(folder.0.join("days"));
    folder.put(&format!("days/{date}.temperatures"), &floats(&[temperature; 8]));
    folder.put(&format!("days/{date}.cloud"), &[cloud]);
}

/// Runs a folder of days and gives its lines but the last, which is the rate.
fn lines(folder: &Folder, line: &str) -> String {
    let said = folder.run(&line.split(' ').collect::<Vec<_>>(), &[]);
    assert_eq!((said.status, said.err.as_str()), (0, ""), "{line}");
    let text = String::from_utf8(said.out).unwrap();
    let (lines, rate) = text.trim_end().rsplit_once('\n').unwrap();
    assert!(rate.starts_with("rate: ") && rate.ends_with(" days a second"), "{rate}");
    format!("{lines}\n")
}

#[test]
fn one_day() {
    let folder = begun();
    let day =
        |date: &str, cloud: &str| format!("day --rings 0 --limit 2 --date {date} news {cloud} c");
    folder.prints(
        &day("2026-03-09", "cloud"),
        "2026-03-09: fresh 5, coldest 16.0 °C, warmest 16.5 °C\n",
    );
    let temperatures = floats(&[21.0, 16.5, 16.0, 16.0, 16.0, 16.0, 21.0, 21.0]);
    assert_eq!(held(&folder, "c"), (temperatures, vec![1, 0, 0, 0, 0, 0, 1, 1]));
    folder.put("all", &[255]);
    folder.prints(&day("2026-03-10", "all"), "2026-03-10: fresh 0\n");
    folder.prints(&day("2026-03-11", "all"), "2026-03-11: fresh 0\n");
    assert_eq!(held(&folder, "c").1, [255, 2, 2, 2, 2, 2, 255, 255]);
    folder.prints("reading 1 c", "carried 16.5 °C, 2 days, chart of 2026-03-11\n");
}

#[test]
fn a_day_to_another_file() {
    let folder = begun();
    let before = folder.get("c");
    let line = "day --rings 0 --limit 2 --date 2026-03-09 news cloud c --to";
    let said = "2026-03-09: fresh 5, coldest 16.0 °C, warmest 16.5 °C\n";
    folder.prints(&format!("{line} other"), said);
    assert_eq!(folder.get("c"), before);
    assert_eq!(held(&folder, "other").1, [1, 0, 0, 0, 0, 0, 1, 1]);
    // Again, over the first; and to nowhere, to try a day.
    folder.prints(&format!("{line} other"), said);
    folder.prints(&format!("{line} /dev/null"), said);
    folder.wrong_line(&format!("{line} c"), "c: is also read (c)");
    folder.wrong_line(&format!("{line} news"), "news: is also read (news)");
    folder.wrong_line(&format!("{line} -"), "--to names a file");
}

#[test]
fn refused_days() {
    let folder = begun();
    folder.put("short", &floats(&[21.0; 7]));
    let day = |options: &str| format!("day --date 2026-03-09 {options} c");
    let sentence = folder.refused(&day("--rings 0 --limit 2 short cloud"), 5);
    assert!(sentence.ends_with("(level 0: short has 28 bytes, not 32)"), "{sentence}");
    let sentence = folder.refused(&day("--rings 0 --limit 2 a t"), 5);
    assert!(
        sentence.ends_with("(level 0: a has 8 bytes, not 32; t has 32 bytes, not 1)"),
        "{sentence}"
    );
    assert_eq!(
        folder.refused(&day("--rings 65 --limit 2 news cloud"), 6),
        "there are more than 64 rings"
    );
    let sentence = folder.refused(&day("--rings 64 --limit 31 news cloud"), 6);
    assert_eq!(sentence, "the limit is above 30 days");
    folder.wrong_line(&day("--limit 2 news cloud"), "--rings is missing");
    folder.wrong_line(&day("--rings 1 news cloud"), "--limit is missing");
    folder.wrong_line(&day("--rings 1 --limit 2 news absent"), "absent: No such file");
    folder
        .wrong_line(&day("--rings 1 --limit 2 - -"), "standard input can stand for one file only");
    folder.wrong_line("day --rings 1 --limit 2 news cloud c", "--date is missing");
    folder.wrong_line("day --rings 1 --limit 2 --date 2026-03-09 news cloud b", "b: No such file");
    folder.wrong_line(
        "day --rings 1 --limit 2 --date 2026-03-09 news cloud -",
        "name the chart's file",
    );
    folder.wrong_line("day --rings 1 --limit 2 --date 2026-03-09 news cloud .", ".: is not a file");
    folder.wrong_line("day --rings 1 --limit 2 --date 9/3/2026 news cloud c", "not '9/3/2026'");
    folder.wrong_line("day --rings 1 --limit 2 news", "CHART is missing");
    folder.wrong_line("day --rings 1 --limit 2 --date 2026-03-09 news cloud", "CHART is missing");
    folder.wrong_line("day --rings 1 --limit 2 --date 2026-03-09", "NEWS is missing");
    let missing = "day --rings 1 --limit 2 --missing clear --date 2026-03-09 news cloud c";
    folder.wrong_line(missing, "--missing is followed by cloud, not by 'clear'");
}

#[test]
fn news_from_standard_input() {
    let folder = begun();
    let words = "day --rings 0 --limit 2 --date 2026-03-09 - cloud c";
    let said = folder.run(&words.split(' ').collect::<Vec<_>>(), &folder.get("news"));
    assert_eq!((said.status, said.err.as_str()), (0, ""));
    assert_eq!(held(&folder, "c").1, [1, 0, 0, 0, 0, 0, 1, 1]);
}

#[test]
fn dates_at_the_ends_of_months_and_years() {
    for (chart, day, skips) in [
        ("2026-12-31", "2027-01-01", "2027-01-02"),
        ("2024-02-28", "2024-02-29", "2024-03-01"),
        ("2023-02-28", "2023-03-01", "2023-03-02"),
        ("1900-02-28", "1900-03-01", "1900-03-02"),
        ("2000-02-29", "2000-03-01", "2001-02-28"),
    ] {
        let folder = begun_on(chart);
        let line = |date: &str| format!("day --rings 0 --limit 2 --date {date} news clear c");
        folder.not_in_order(&line(skips), &format!("missing between {chart} and {skips}: nothing"));
        folder.not_in_order(&line(chart), &format!("c: {chart} is not after its date, {chart}"));
        folder.prints(&line(day), &format!("{day}: fresh 6, coldest 16.0 °C, warmest 16.5 °C\n"));
    }
    let folder = begun();
    folder.wrong_line("day --rings 0 --limit 2 --date 2026-02-29 news clear c", "not '2026-02-29'");
}

#[test]
fn a_folder_of_days() {
    let folder = begun();
    put_day(&folder, "2026-03-10", 18.0, 6);
    put_day(&folder, "2026-03-09", 17.0, 2);
    put_day(&folder, "2026-03-11", 19.0, 14);
    assert_eq!(
        lines(&folder, "day --rings 0 --limit 30 days c"),
        "2026-03-09: fresh 7, coldest 17.0 °C, warmest 17.0 °C\n\
         2026-03-10: fresh 6, coldest 18.0 °C, warmest 18.0 °C\n\
         2026-03-11: fresh 5, coldest 19.0 °C, warmest 19.0 °C\n"
    );
    let temperatures = floats(&[19.0, 21.0, 17.0, 18.0, 19.0, 19.0, 19.0, 19.0]);
    assert_eq!(held(&folder, "c"), (temperatures, vec![0, 3, 2, 1, 0, 0, 0, 0]));
    // The days are in the chart already.
    folder.not_in_order(
        "day --rings 0 --limit 30 days c",
        "2026-03-09 is not after its date, 2026-03-11",
    );
}

#[test]
fn a_folder_that_is_not_in_order() {
    let folder = begun();
    let line = "day --rings 0 --limit 30 days c";
    folder.wrong_line(line, "days: No such file");
    put_day(&folder, "2026-03-09", 17.0, 0);
    folder.wrong_line(&format!("{line} --date 2026-03-09"), "--date is for one day");
    // The last day is refused: the chart stays as it was before the first.
    folder.put("days/2026-03-10.cloud", &[1, 2]);
    folder.wrong_line(line, "days/2026-03-10.temperatures: is missing");
    folder.put("days/2026-03-10.temperatures", &floats(&[20.0; 8]));
    let sentence = folder.refused(line, 5);
    assert!(sentence.contains("days/2026-03-10.cloud has 2 bytes, not 1"), "{sentence}");
    for name in
        ["README", ".hidden", "2026-03-11.temperature", "2026-3-11.cloud", "2026-02-30.cloud"]
    {
        let path = format!("days/{name}");
        folder.put(&path, &[0]);
        folder.wrong_line(line, &format!("{path}: is not named DATE.temperatures or DATE.cloud"));
        fs::remove_file(folder.0.join(path)).unwrap();
    }
    fs::create_dir(folder.0.join("empty")).unwrap();
    folder.wrong_line("day --rings 0 --limit 30 empty c", "empty: has no days");
}

#[test]
fn missing_days_as_all_cloud() {
    let folder = begun();
    put_day(&folder, "2026-03-10", 18.0, 1);
    put_day(&folder, "2026-03-13", 19.0, 2);
    folder.not_in_order(
        "day --rings 0 --limit 30 days c",
        "1 day is missing between 2026-03-08 and 2026-03-10",
    );
    assert_eq!(
        lines(&folder, "day --rings 0 --limit 30 --missing cloud days c"),
        "2026-03-09: missing, run as all cloud, fresh 0\n\
         2026-03-10: fresh 7, coldest 18.0 °C, warmest 18.0 °C\n\
         2026-03-11: missing, run as all cloud, fresh 0\n\
         2026-03-12: missing, run as all cloud, fresh 0\n\
         2026-03-13: fresh 7, coldest 19.0 °C, warmest 19.0 °C\n"
    );
    folder.prints("reading 1 c", "carried 18.0 °C, 3 days, chart of 2026-03-13\n");
    // One day by its files, three days later.
    let line = "day --rings 0 --limit 2 --missing cloud --date 2026-03-16 news cloud c";
    folder.prints(
        line,
        "2026-03-14: missing, run as all cloud, fresh 0\n\
         2026-03-15: missing, run as all cloud, fresh 0\n\
         2026-03-16: fresh 5, coldest 16.0 °C, warmest 16.5 °C\n",
    );
    folder.prints("reading 0 c", "gap, chart of 2026-03-16\n");
    folder.not_in_order(line, "2026-03-16 is not after its date");
}

#[test]
fn no_progress_where_there_is_no_terminal() {
    let folder = begun();
    for day in 10..=28 {
        put_day(&folder, &format!("2026-03-{day}"), 17.0, 0);
    }
    let said = folder.run(
        &"day --rings 1 --limit 30 --missing cloud days c".split(' ').collect::<Vec<_>>(),
        &[],
    );
    assert_eq!((said.status, said.err.as_str()), (0, ""));
    // A line for each of the twenty days, the rate, and nothing after it.
    assert_eq!(said.out.split(|byte| *byte == b'\n').count(), 22);
}
