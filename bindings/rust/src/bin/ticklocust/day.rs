//! `day`.

use std::ffi::{OsStr, OsString};
use std::path::Path;
use std::time::Instant;

use ticklocust::{chart_len, mask_len, Refusal, Summary};

use crate::chart_file::{floats, Chart, MOST_TEMPERATURES};
use crate::days::{of_folder, plan, Day};
use crate::files::Inputs;
use crate::held::Held;
use crate::masks::{lengths_told, Length, MOST as MOST_MASK};
use crate::outputs::{apart, write};
use crate::progress::Progress;
use crate::trouble::{Done, Of, Trouble};
use crate::words::Words;

/// The options that hold for every day of a run.
struct Rules {
    rings: u32,
    limit: u32,
}

pub fn day(words: &[OsString]) -> Done {
    let words = Words::sort(words, &["rings", "limit", "date", "missing", "to"])?;
    let rules = Rules { rings: words.needed("rings")?, limit: words.needed("limit")? };
    let missing = missing(&words)?;
    let folder = names_folder(&words);
    let (days, place) = if folder { days_of(&words)? } else { one_day(&words)? };
    let started = Instant::now();

    let held = Held::new(place)?;
    let mut chart = held.chart()?;
    let days = plan(&place.to_string_lossy(), chart.date, days, missing)?;
    let mut inputs = Inputs::default();
    let mut text = run(&days, &rules, &mut chart, &mut inputs)?;
    if folder {
        text += &rate(days.len(), started);
    }
    match words.option("to") {
        None => write(&inputs, &[(place, &chart.encode())], &text),
        Some(other) => {
            inputs.note(place.as_ref(), &held.file)?;
            write_to(&inputs, other, &chart.encode(), &text)
        }
    }
}

/// Writes the new chart to another file. One that is there may be the chart of another run.
fn write_to(inputs: &Inputs, other: &OsStr, bytes: &[u8], text: &str) -> Done {
    if other == "-" {
        return Err(Trouble::usage("--to names a file: standard output has a line for each day"));
    }
    let files = [(other, bytes)];
    apart(inputs, &files, text)?;
    let there = std::fs::metadata(other).is_ok_and(|about| about.is_file());
    let _held = there.then(|| Held::new(other)).transpose()?;
    write(inputs, &files, text)
}

/// Whether missing days are to be run as all cloud.
fn missing(words: &Words) -> Result<bool, Trouble> {
    match words.option("missing") {
        None => Ok(false),
        Some(value) if value == "cloud" => Ok(true),
        Some(value) => {
            let value = value.to_string_lossy();
            Err(Trouble::usage(format!("--missing is followed by cloud, not by '{value}'")))
        }
    }
}

/// Whether the places are a folder and a chart, and not those of one day with some left out.
fn names_folder(words: &Words) -> bool {
    let first = words.first().map(Path::new);
    words.count() <= 2 && (words.option("date").is_none() || first.is_some_and(Path::is_dir))
}

fn days_of(words: &Words) -> Result<(Vec<Day>, &OsStr), Trouble> {
    let [folder, chart] = words.places(["FOLDER", "CHART"])?;
    if words.option("date").is_some() {
        return Err(Trouble::usage(
            "--date is for one day; the files of a folder have their dates",
        ));
    }
    Ok((of_folder(folder)?, chart))
}

fn one_day(words: &Words) -> Result<(Vec<Day>, &OsStr), Trouble> {
    let [news, cloud, chart] = words.places(["NEWS", "CLOUD", "CHART"])?;
    let day = Day { date: words.date("date")?, files: Some([news.into(), cloud.into()]) };
    Ok((vec![day], chart))
}

/// Takes the chart through the days. Gives a line for each.
fn run(
    days: &[Day],
    rules: &Rules,
    chart: &mut Chart,
    inputs: &mut Inputs,
) -> Result<String, Trouble> {
    let mut progress = Progress::new(days.len());
    let mut text = String::new();
    for day in days {
        progress.show(day.date);
        let summary = run_one(day, rules, chart, inputs)?;
        chart.date = day.date;
        text += &line(day, summary);
    }
    Ok(text)
}

/// Takes the chart through a day: the cloud mask is grown, then the day is run.
fn run_one(
    day: &Day,
    rules: &Rules,
    chart: &mut Chart,
    inputs: &mut Inputs,
) -> Result<Summary, Trouble> {
    let level = chart.level;
    let bytes = mask_len(level).unwrap_or(0);
    let (news, cloud) = match &day.files {
        Some([news, cloud]) => {
            (inputs.read(news, MOST_TEMPERATURES)?, inputs.read(cloud, MOST_MASK)?)
        }
        None => (vec![0; 4 * chart_len(level).unwrap_or(0)], vec![255; bytes]),
    };
    let places = day.files.iter().flatten().map(OsString::as_os_str);
    let lengths = [(news.len(), MOST_TEMPERATURES), (cloud.len(), MOST_MASK)];
    let files: Vec<Length> = places.zip(lengths).map(|(p, (had, most))| (p, had, most)).collect();
    let refused = |of: Of, refusal: Refusal| lengths_told(of, refusal, level, &files);
    let (mut grown, mut work) = (vec![0; bytes], vec![0; bytes]);
    ticklocust::grow(level, rules.rings, &cloud, &mut grown, &mut work)
        .map_err(|refusal| refused(Of::Masks, refusal))?;
    let Chart { temperatures, ages, .. } = chart;
    ticklocust::day(level, rules.limit, &floats(&news), &grown, temperatures, ages)
        .map_err(|refusal| refused(Of::Days, refusal))
}

/// What is said of a day.
fn line(day: &Day, summary: Summary) -> String {
    let missing = if day.files.is_none() { " missing, run as all cloud," } else { "" };
    let Summary { count, coldest, warmest } = summary;
    let fresh = format!("{}:{missing} fresh {count}", day.date);
    match count {
        0 => format!("{fresh}\n"),
        _ => format!("{fresh}, coldest {coldest:?} °C, warmest {warmest:?} °C\n"),
    }
}

fn rate(days: usize, started: Instant) -> String {
    let seconds = started.elapsed().as_secs_f64().max(1e-6);
    let rate = days as f64 / seconds;
    let days = if days == 1 { "1 day".to_string() } else { format!("{days} days") };
    format!("rate: {days} in {seconds:.3} s, {rate:.0} days a second\n")
}
