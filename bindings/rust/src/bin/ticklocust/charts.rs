//! `chart new`, `chart import`, `chart export`, `chart info`, `chart list`, `reading`.

use std::collections::BTreeMap;
use std::ffi::OsString;
use std::fmt::Write;

use ticklocust::Reading;

use crate::chart_file::{floats, Chart, MOST_AGES, MOST_TEMPERATURES};
use crate::files::Inputs;
use crate::held::read;
use crate::masks::{lengths_told, level_of};
use crate::numbers::{degrees, whole};
use crate::outputs::{say, write, write_new};
use crate::trouble::{Done, Of, Trouble};
use crate::words::Words;

pub fn none(words: &[OsString]) -> Done {
    Words::sort(words, &[])?;
    Err(Trouble::usage("chart is followed by new, import, export, info or list"))
}

pub fn new(words: &[OsString]) -> Done {
    let words = Words::sort(words, &["level", "date"])?;
    let [place] = words.places(["CHART"])?;
    let (level, date) = (words.needed("level")?, words.date("date")?);
    let chart = Chart::gaps(level, date).map_err(|refusal| Of::Masks.refuses(refusal))?;
    write_new(&Inputs::default(), place, &chart.encode())
}

pub fn import(words: &[OsString]) -> Done {
    let words = Words::sort(words, &["level", "date"])?;
    let [temperatures, ages, place] = words.places(["TEMPERATURES", "AGES", "CHART"])?;
    let (given, date) = (words.number("level")?, words.date("date")?);
    let mut inputs = Inputs::default();
    let bytes = inputs.read(temperatures, MOST_TEMPERATURES)?;
    let lengths = (temperatures, bytes.len(), MOST_TEMPERATURES);
    let temperatures = floats(&bytes);
    let bytes = inputs.read(ages, MOST_AGES)?;
    let lengths = [lengths, (ages, bytes.len(), MOST_AGES)];
    let level = given.unwrap_or_else(|| level_of(bytes.len(), 8));
    let chart = Chart { date, level, temperatures, ages: bytes };
    // Any reading checks both lengths.
    chart.reading(0).map_err(|refusal| lengths_told(Of::Masks, refusal, level, &lengths))?;
    write_new(&inputs, place, &chart.encode())
}

pub fn export(words: &[OsString]) -> Done {
    let words = Words::sort(words, &[])?;
    let [place, temperatures, ages] = words.places(["CHART", "TEMPERATURES", "AGES"])?;
    let mut inputs = Inputs::default();
    let chart = read(&mut inputs, place)?;
    write(&inputs, &[(temperatures, &chart.temperature_bytes()), (ages, &chart.ages)], "")
}

pub fn info(words: &[OsString]) -> Done {
    let words = Words::sort(words, &[])?;
    let [place] = words.places(["CHART"])?;
    let mut inputs = Inputs::default();
    let chart = read(&mut inputs, place)?;
    let (mut fresh, mut gap, mut carried) = (0, 0, BTreeMap::new());
    for (_, reading) in readings(&chart)? {
        match reading {
            Reading::Fresh(_) => fresh += 1,
            Reading::Carried(_, days) => *carried.entry(days).or_insert(0) += 1,
            Reading::Gap => gap += 1,
        }
    }
    let all: u32 = carried.values().sum();
    let mut text = format!("date {}\nlevel {}\n", chart.date, chart.level);
    text += &format!("fresh {fresh}\ncarried {all}\ngap {gap}\n");
    for (days, cells) in carried {
        let _ = writeln!(text, "carried-days {days} {cells}");
    }
    say(&inputs, &text)
}

pub fn list(words: &[OsString]) -> Done {
    let words = Words::sort(words, &[])?;
    let [place] = words.places(["CHART"])?;
    let mut inputs = Inputs::default();
    let chart = read(&mut inputs, place)?;
    let mut text = "cell\tlatitude\tlongitude\tkind\ttemperature\tdays\n".to_string();
    for (cell, reading) in readings(&chart)? {
        let (latitude, longitude) =
            ticklocust::centre(chart.level, cell).map_err(|refusal| Of::Cells.refuses(refusal))?;
        let _ = write!(text, "{cell}\t{}\t{}\t", degrees(latitude.0), degrees(longitude.0));
        let _ = match reading {
            Reading::Fresh(temperature) => writeln!(text, "fresh\t{temperature:?}\t0"),
            Reading::Carried(temperature, days) => {
                writeln!(text, "carried\t{temperature:?}\t{days}")
            }
            Reading::Gap => writeln!(text, "gap\t\t"),
        };
    }
    say(&inputs, &text)
}

/// The cells with their readings.
fn readings(chart: &Chart) -> Result<Vec<(u32, Reading)>, Trouble> {
    let reading = |(cell, _)| {
        let reading = chart.reading(cell).map_err(|refusal| Of::Masks.refuses(refusal))?;
        Ok((cell, reading))
    };
    (0..).zip(&chart.ages).map(reading).collect()
}

pub fn reading(words: &[OsString]) -> Done {
    let words = Words::sort(words, &[])?;
    let [cell, place] = words.places(["CELL", "CHART"])?;
    let cell = whole("CELL", &cell.to_string_lossy())?;
    let mut inputs = Inputs::default();
    let chart = read(&mut inputs, place)?;
    let reading =
        chart.reading(cell).map_err(|refusal| Of::Masks.refuses(refusal).of_level(chart.level))?;
    let reading = match reading {
        Reading::Fresh(temperature) => format!("fresh {temperature:?} °C"),
        Reading::Carried(temperature, 1) => format!("carried {temperature:?} °C, 1 day"),
        Reading::Carried(temperature, days) => format!("carried {temperature:?} °C, {days} days"),
        Reading::Gap => "gap".to_string(),
    };
    say(&inputs, &format!("{reading}, chart of {}\n", chart.date))
}
