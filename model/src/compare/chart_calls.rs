//! One call each to the charts' part of the library and of the model, compared. Temperatures are
//! kept as their bits.

use crate::library::charts as library;
use crate::outcome::{Outcome, Slice};
use crate::tally::{Call, Tally};
use model::charts::{self, Reading};

/// A chart's two slices.
#[derive(Clone)]
pub struct Chart {
    pub temperatures: Vec<u32>,
    pub ages: Vec<u8>,
}

fn floats(bits: &[u32]) -> Vec<f32> {
    bits.iter().map(|&word| f32::from_bits(word)).collect()
}

/// The readings of these cells. The chart itself is compared with a copy at the end.
pub fn readings(tally: &mut Tally, level: u32, cells: &[u32], chart: &Chart) {
    let mut lent = chart.clone();
    let temperatures = floats(&chart.temperatures);
    for &cell in cells {
        let answer = charts::reading(level, cell, &temperatures, &chart.ages);
        let answer = answer.map(|reading| match reading {
            Reading::Fresh(temperature) => [0, temperature.to_bits(), 0],
            Reading::Carried(temperature, days) => [1, temperature.to_bits(), days],
            Reading::Gap => [2, library::SOME_NAN, 255],
        });
        let model = Outcome::model(answer, Vec::new());
        let library = library::reading(level, cell, &mut lent.temperatures, &mut lent.ages);
        let arguments = |call: Call| {
            let call = call.number("level", level).number("cell", cell);
            call.words("temperatures", &chart.temperatures).bytes("ages", &chart.ages)
        };
        tally.compare("ticklocust_reading", arguments, &model, &library);
    }
    let same = lent.temperatures == chart.temperatures && lent.ages == chart.ages;
    assert!(same, "a reading changed its chart (task {}, seed {})", tally.task, tally.seed);
}

/// One day. Gives the chart that it leaves.
pub fn day(
    tally: &mut Tally,
    level: u32,
    limit: u32,
    news: &[u32],
    cloud: &[u8],
    chart: &Chart,
) -> Chart {
    let (temperatures, ages) = (floats(&chart.temperatures), &chart.ages);
    let (answer, left) = match charts::day(level, limit, &floats(news), cloud, &temperatures, ages)
    {
        Ok(day) => {
            let temperatures = day.temperatures.iter().map(|t| t.to_bits()).collect();
            let sum = day.summary;
            let answer = [sum.count, sum.coldest.to_bits(), sum.warmest.to_bits()];
            (Ok(answer), Chart { temperatures, ages: day.ages })
        }
        Err(number) => (Err(number), chart.clone()),
    };
    let slices = vec![
        Slice::Words(news.to_vec()),
        Slice::Words(left.temperatures.clone()),
        Slice::Bytes(cloud.to_vec()),
        Slice::Bytes(left.ages.clone()),
    ];
    let model = Outcome::model(answer, slices);
    let library = library::day(level, limit, news, cloud, &chart.temperatures, &chart.ages);
    let arguments = |call: Call| {
        let call = call.number("level", level).number("limit", limit);
        let call = call.words("news", news).bytes("cloud", cloud);
        call.words("temperatures", &chart.temperatures).bytes("ages", &chart.ages)
    };
    tally.compare("ticklocust_day", arguments, &model, &library);
    left
}
