//! The days that are run: one by its two files, or all of a folder, in the order of their dates.

use std::collections::BTreeMap;
use std::ffi::{OsStr, OsString};
use std::fs;
use std::path::{Path, PathBuf};

use crate::dates::Date;
use crate::trouble::Trouble;

/// A day with its temperatures and its cloud mask; without, it is run as all cloud.
pub struct Day {
    pub date: Date,
    pub files: Option<[OsString; 2]>,
}

const ENDINGS: [&str; 2] = ["temperatures", "cloud"];

/// The days of a folder, DATE.temperatures and DATE.cloud. There is nothing else in it.
pub fn of_folder(folder: &OsStr) -> Result<Vec<Day>, Trouble> {
    let trouble = |error| Trouble::file(folder.to_string_lossy(), error);
    let mut days: BTreeMap<Date, [Option<PathBuf>; 2]> = BTreeMap::new();
    for entry in fs::read_dir(folder).map_err(trouble)? {
        let path = entry.map_err(trouble)?.path();
        let Some((date, ending)) = date_and_ending(&path) else {
            let what = "is not named DATE.temperatures or DATE.cloud, with DATE as YYYY-MM-DD: \
                        move it to another folder";
            return Err(Trouble::file(path.to_string_lossy(), what));
        };
        days.entry(date).or_default()[ending] = Some(path);
    }
    if days.is_empty() {
        let what = "has no days (DATE.temperatures and DATE.cloud)";
        return Err(Trouble::file(folder.to_string_lossy(), what));
    }
    let day = |(date, files): (Date, [Option<PathBuf>; 2])| match files {
        [Some(news), Some(cloud)] => Ok(Day { date, files: Some([news.into(), cloud.into()]) }),
        [news, _] => {
            let missing = format!("{date}.{}", ENDINGS[usize::from(news.is_some())]);
            let path = Path::new(folder).join(missing);
            Err(Trouble::file(path.to_string_lossy(), "is missing"))
        }
    };
    days.into_iter().map(day).collect()
}

fn date_and_ending(path: &Path) -> Option<(Date, usize)> {
    let (date, ending) = path.file_name()?.to_str()?.split_once('.')?;
    Some((Date::parse(date)?, ENDINGS.iter().position(|name| *name == ending)?))
}

/// The days to run after the date of the chart of this name: those given, and if `missing` is true
/// those that are missing before or between them.
pub fn plan(name: &str, date: Date, days: Vec<Day>, missing: bool) -> Result<Vec<Day>, Trouble> {
    let mut planned = Vec::new();
    let mut last = date;
    for day in days {
        if day.date <= last {
            let what = format!("{} is not after its date, {last}: nothing is changed", day.date);
            return Err(Trouble::Date(format!("{name}: {what}")));
        }
        let skipped = day.date.number() - last.number() - 1;
        if skipped > 0 && !missing {
            let are = if skipped == 1 { "day is" } else { "days are" };
            let what = format!("{skipped} {are} missing between {last} and {}", day.date);
            let way_out = "Run what is missing first, or as all cloud with --missing cloud";
            return Err(Trouble::Date(format!("{name}: {what}: nothing is changed. {way_out}")));
        }
        while last.next() < day.date {
            last = last.next();
            planned.push(Day { date: last, files: None });
        }
        last = day.date;
        planned.push(day);
    }
    Ok(planned)
}

#[cfg(test)]
mod tests {
    use super::*;

    fn planned(chart: &str, days: &[&str], missing: bool) -> Result<String, Trouble> {
        let date = |text: &str| Date::parse(text).unwrap();
        let day = |text: &&str| Day { date: date(text), files: Some(["n".into(), "c".into()]) };
        let planned = plan("c", date(chart), days.iter().map(day).collect(), missing)?;
        let told =
            |day: &Day| format!("{}{}", day.date, if day.files.is_some() { "" } else { "?" });
        Ok(planned.iter().map(told).collect::<Vec<_>>().join(" "))
    }

    #[test]
    fn days_follow_the_chart() {
        assert_eq!(planned("2026-12-31", &["2027-01-01"], false).unwrap(), "2027-01-01");
        let days = ["2024-02-28", "2024-03-02"];
        assert_eq!(
            planned("2024-02-27", &days, true).unwrap(),
            "2024-02-28 2024-02-29? 2024-03-01? 2024-03-02"
        );
        for (day, missing) in [("2024-02-27", true), ("2024-02-26", true), ("2024-02-29", false)] {
            let refused = planned("2024-02-27", &[day], missing);
            assert!(matches!(refused, Err(Trouble::Date(_))), "{day}");
        }
    }
}
