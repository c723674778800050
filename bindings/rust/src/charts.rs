//! Charts: a temperature in degrees Celsius and an age in days for each cell. A chart of level 0 to
//! 8 is [`chart_len`](crate::chart_len) temperatures, 8 × 4^level, and as many ages.

use std::fmt;

use crate::{raw, Refusal};

/// What a chart says about a cell, in degrees Celsius. The temperature can only be reached through
/// the kind of reading, and a gap has none.
///
/// ```
/// use ticklocust::Reading;
///
/// assert_eq!(Reading::Fresh(21.0).to_string(), "fresh 21.0");
/// assert_eq!(Reading::Carried(21.0, 3).to_string(), "carried 21.0, 3 days");
/// assert_eq!(Reading::Gap.to_string(), "gap");
/// ```
#[derive(Clone, Copy, Debug, PartialEq)]
pub enum Reading {
    /// This temperature, observed on the last day.
    Fresh(f32),
    /// This temperature, last observed this many days ago, 1 to 30.
    Carried(f32, u8),
    /// No temperature is known.
    Gap,
}

impl fmt::Display for Reading {
    fn fmt(&self, f: &mut fmt::Formatter<'_>) -> fmt::Result {
        match self {
            Reading::Fresh(temperature) => write!(f, "fresh {temperature:?}"),
            Reading::Carried(temperature, 1) => write!(f, "carried {temperature:?}, 1 day"),
            Reading::Carried(temperature, days) => {
                write!(f, "carried {temperature:?}, {days} days")
            }
            Reading::Gap => f.write_str("gap"),
        }
    }
}

/// The fresh cells of a chart after a day. If no cell is fresh, `count` is 0 and both temperatures
/// are 0.0.
#[derive(Clone, Copy, Debug, PartialEq)]
pub struct Summary {
    /// How many cells are fresh.
    pub count: u32,
    /// The lowest temperature of a fresh cell, in degrees Celsius.
    pub coldest: f32,
    /// The highest temperature of a fresh cell, in degrees Celsius.
    pub warmest: f32,
}

/// The reading of a cell: fresh at age 0, carried at ages 1 to 30, and a gap if the age is above 30
/// or the temperature is not in range, -5.0 to 45.0. NaN is not in range.
///
/// # Errors
///
/// Refused by 1, 4, 5.
///
/// ```
/// use ticklocust::{reading, Reading, Refusal};
///
/// let temperatures = [21.0, 21.0, 21.0, 45.5, f32::NAN, 0.0, 0.0, 0.0];
/// let ages = [0, 3, 31, 0, 0, 255, 255, 255];
/// assert_eq!(reading(0, 0, &temperatures, &ages), Ok(Reading::Fresh(21.0)));
/// assert_eq!(reading(0, 1, &temperatures, &ages), Ok(Reading::Carried(21.0, 3)));
/// for cell in 2..8 {
///     assert_eq!(reading(0, cell, &temperatures, &ages), Ok(Reading::Gap));
/// }
/// assert_eq!(reading(0, 8, &temperatures, &ages), Err(Refusal::Cell));
/// ```
pub fn reading(
    level: u32,
    cell: u32,
    temperatures: &[f32],
    ages: &[u8],
) -> Result<Reading, Refusal> {
    Ok(match raw::reading(level, cell, temperatures, ages)? {
        (0, temperature, _) => Reading::Fresh(temperature),
        // Days are 1 to 30.
        (1, temperature, days) => Reading::Carried(temperature, days as u8),
        // The temperature is a NaN and the days are 255; neither is passed on.
        _ => Reading::Gap,
    })
}

/// One day of a chart, which is rewritten. A cell that `cloud` doesn't mark and whose temperature
/// in `news` is in range takes that temperature, at age 0. Any other cell keeps its temperature and
/// becomes one day older; past `limit` days, 0 to 30, or if its temperature is not in range, it
/// becomes a gap (temperature 0.0, age 255).
///
/// # Errors
///
/// Refused by 1, 5, 6.
///
/// ```
/// use ticklocust::{day, reading, Reading, Refusal};
///
/// let (mut temperatures, mut ages) = ([21.0; 8], [0; 8]);
/// let news = [16.0, 16.5, 17.0, 17.5, 16.0, 16.0, 16.0, 16.0];
/// let summary = day(0, 30, &news, &[0b1111_0001], &mut temperatures, &mut ages)?;
/// assert_eq!((summary.count, summary.coldest, summary.warmest), (3, 16.5, 17.5));
/// assert_eq!(reading(0, 0, &temperatures, &ages)?, Reading::Carried(21.0, 1));
/// assert_eq!(reading(0, 1, &temperatures, &ages)?, Reading::Fresh(16.5));
/// # Ok::<(), Refusal>(())
/// ```
pub fn day(
    level: u32,
    limit: u32,
    news: &[f32],
    cloud: &[u8],
    temperatures: &mut [f32],
    ages: &mut [u8],
) -> Result<Summary, Refusal> {
    let (count, coldest, warmest) = raw::day(level, limit, news, cloud, temperatures, ages)?;
    Ok(Summary { count, coldest, warmest })
}
