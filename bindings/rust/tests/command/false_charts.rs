//! Eight ways in which a chart could come to say what was not observed, or not when. Each is now
//! refused, or gives the right chart.

use std::fs::OpenOptions;

use crate::blocked::Blocked;
use crate::charts::floats;
use crate::days::{begun, held, put_day};

const DAY: &str = "day --rings 0 --limit 30 --date 2026-03-09 news cloud c";
const SAID: &str = "2026-03-09: fresh 5, coldest 16.0 °C, warmest 16.5 °C\n";

#[test]
fn way_1_temperatures_and_ages_of_different_days() {
    // A chart is one file: half of it can't be written elsewhere.
    let folder = begun();
    folder.wrong_line(
        &format!("{DAY} --to-temperatures t2"),
        "there is no option '--to-temperatures'",
    );
    folder.wrong_line(
        "day --limit 30 --rings 0 --date 2026-03-09 news cloud t a",
        "one word too many",
    );
    folder.wrong_line(
        "day --limit 30 --rings 0 --date 2026-03-09 news cloud t",
        "is not a chart file",
    );
}

#[test]
fn way_2_missing_days_that_nobody_counts() {
    let folder = begun();
    put_day(&folder, "2026-03-09", 17.0, 0);
    put_day(&folder, "2026-03-17", 18.0, 255);
    let line = "day --rings 0 --limit 30 days c";
    folder.not_in_order(line, "7 days are missing between 2026-03-09 and 2026-03-17");
    let said = folder.run(&format!("{line} --missing cloud").split(' ').collect::<Vec<_>>(), &[]);
    assert_eq!(said.status, 0);
    folder.prints("reading 0 c", "carried 17.0 °C, 8 days, chart of 2026-03-17\n");
}

#[test]
fn way_3_days_in_the_order_of_their_names() {
    let folder = begun();
    std::fs::create_dir(folder.0.join("days")).unwrap();
    for day in ["1", "2", "10"] {
        folder.put(&format!("days/{day}.temperatures"), &floats(&[17.0; 8]));
        folder.put(&format!("days/{day}.cloud"), &[0]);
    }
    folder.wrong_line("day --rings 0 --limit 30 days c", "is not named DATE.temperatures");
}

#[test]
fn way_4_a_retry_that_ages_twice() {
    let folder = begun();
    let before = folder.all();
    let full = OpenOptions::new().write(true).open("/dev/full").unwrap();
    let output = folder.command(&DAY.split(' ').collect::<Vec<_>>()).stdout(full).output().unwrap();
    let told = String::from_utf8(output.stderr).unwrap();
    assert!(told.starts_with("ticklocust: standard output: No space left"), "{told}");
    assert_eq!(output.status.code(), Some(2));
    assert_eq!(folder.all(), before);
    folder.prints(DAY, SAID);
    assert_eq!(held(&folder, "c").1, [1, 0, 0, 0, 0, 0, 1, 1]);
    folder.not_in_order(DAY, "c: 2026-03-09 is not after its date, 2026-03-09: nothing is changed");
}

#[test]
fn way_5_cloud_that_is_not_grown() {
    let folder = begun();
    folder.wrong_line("day --limit 30 --date 2026-03-09 news cloud c", "--rings is missing");
    folder.prints(&DAY.replace("--rings 0", "--rings 1"), "2026-03-09: fresh 0\n");
    // Cell 6 alone doesn't touch cell 0, and has no temperature in range.
    assert_eq!(held(&folder, "c").1, [1; 8]);
}

#[test]
fn way_6_a_day_over_its_own_inputs() {
    let folder = begun();
    std::fs::hard_link(folder.0.join("c"), folder.0.join("linked")).unwrap();
    std::os::unix::fs::symlink("news", folder.0.join("soft")).unwrap();
    let to = |other: &str| format!("{DAY} --to {other}");
    folder.wrong_line(&to("cloud"), "cloud: is also read (cloud): name another file to write");
    folder.wrong_line(&to("soft"), "soft: is also read (news)");
    folder.wrong_line(&to("./c"), "./c: is also read (c)");
    folder.wrong_line(&to("linked"), "linked: is also read (c)");
    // A file as news and as chart is no chart, or no news.
    folder.refused("day --rings 0 --limit 30 --date 2026-03-09 c cloud c", 5);
}

#[test]
fn way_7_two_runs_at_once() {
    let folder = begun();
    let words: Vec<&str> = DAY.split(' ').collect();
    let first = Blocked::start(&folder, &words);
    let second = folder.run(&words, &[]);
    assert_eq!(second.err, "ticklocust: c: another run has this chart in use; try again later\n");
    assert_eq!((second.status, second.out), (2, Vec::new()));
    // Nor is it replaced by the run of another chart.
    folder.prints("chart new --level 0 --date 2026-03-08 d", "");
    let other = "day --rings 0 --limit 30 --date 2026-03-09 news cloud d --to c";
    folder.wrong_line(other, "c: another run has this chart in use");
    assert_eq!(first.release(), (Some(0), SAID.to_string()));
    folder.not_in_order(DAY, "2026-03-09 is not after its date, 2026-03-09");
    assert_eq!(held(&folder, "c").1, [1, 0, 0, 0, 0, 0, 1, 1]);
}

#[test]
fn way_8_a_chart_without_a_date() {
    // Nobody ran a day for a week: what the chart calls fresh is as of its date, and the next day
    // doesn't follow it.
    let folder = begun();
    folder.prints("reading 0 c", "fresh 21.0 °C, chart of 2026-03-08\n");
    let late = DAY.replace("2026-03-09", "2026-03-15");
    folder.not_in_order(&late, "c: 6 days are missing between 2026-03-08 and 2026-03-15");
    let said = folder.run(&format!("{late} --missing cloud").split(' ').collect::<Vec<_>>(), &[]);
    assert_eq!(said.status, 0);
    folder.prints("reading 0 c", "carried 21.0 °C, 7 days, chart of 2026-03-15\n");
}
