//! Charts: the reading of a cell, and a day.

use model::charts::{day, reading, Reading};

use super::Said;
use crate::shown::{self, Cells};
use crate::temperatures;
use crate::words::{bytes, mask, Read, Words};

pub fn reading_call(words: &mut Words, _: Cells) -> Read<Said> {
    let (level, cell) = (words.number("LEVEL")?, words.cell()?);
    let [temperatures, ages] = words.lists()?;
    let (temperatures, ages) = (temperatures::list(temperatures)?, bytes("AGES", ages)?);
    Ok(reading(level, cell, &temperatures, &ages).map(|reading| match reading {
        Reading::Fresh(t) => format!("fresh {}", temperatures::shown(t)),
        Reading::Carried(t, days) => format!("carried {} days {days}", temperatures::shown(t)),
        Reading::Gap => "gap".into(),
    }))
}

/// The answer ends with the chart, also where the day is refused and leaves it as it was.
pub fn day_call(words: &mut Words, _: Cells) -> Read<Said> {
    let (level, limit) = (words.number("LEVEL")?, words.number("LIMIT")?);
    let [news, cloud, temperatures, ages] = words.lists()?;
    let (news, cloud) = (temperatures::list(news)?, mask(level, cloud)?);
    let (temperatures, ages) = (temperatures::list(temperatures)?, bytes("AGES", ages)?);
    Ok(Ok(match day(level, limit, &news, &cloud, &temperatures, &ages) {
        Err(number) => with_chart(shown::refused(number), &temperatures, &ages),
        Ok(day) => {
            let (count, coldest) = (day.summary.count, temperatures::shown(day.summary.coldest));
            let warmest = temperatures::shown(day.summary.warmest);
            let said = format!("fresh {count} coldest {coldest} warmest {warmest}");
            with_chart(said, &day.temperatures, &day.ages)
        }
    }))
}

fn with_chart(said: String, temperatures: &[f32], ages: &[u8]) -> String {
    let temperatures = temperatures.iter().map(|&t| temperatures::shown(t));
    let ages = ages.iter().map(u8::to_string);
    let slash = || std::iter::once("/".to_string());
    shown::words(
        std::iter::once(said).chain(slash()).chain(temperatures).chain(slash()).chain(ages),
    )
}
