//! The file of a chart: a header, the temperatures, the ages, a checksum. `ticklocust help files`
//! documents the layout.

use ticklocust::{chart_len, Reading, Refusal, MAX_MASK_LEVEL};

use crate::crc::crc32;
use crate::dates::Date;

const MAGIC: &[u8; 8] = b"TICKLCST";
const VERSION: u32 = 1;
const HEADER: usize = 32;
const CHECKSUM: usize = 4;

/// The most bytes of a chart's ages, of its temperatures, and of its file.
pub const MOST_AGES: usize = 8 << (2 * MAX_MASK_LEVEL);
pub const MOST_TEMPERATURES: usize = 4 * MOST_AGES;
pub const MOST: usize = HEADER + MOST_TEMPERATURES + MOST_AGES + CHECKSUM;

/// A chart and the date of its last day.
#[derive(Debug)]
pub struct Chart {
    pub date: Date,
    pub level: u32,
    pub temperatures: Vec<f32>,
    pub ages: Vec<u8>,
}

impl Chart {
    /// A chart of gaps, as a day leaves them.
    pub fn gaps(level: u32, date: Date) -> Result<Chart, Refusal> {
        let cells = chart_len(level).ok_or(Refusal::Level)?;
        Ok(Chart { date, level, temperatures: vec![0.0; cells], ages: vec![255; cells] })
    }

    pub fn reading(&self, cell: u32) -> Result<Reading, Refusal> {
        ticklocust::reading(self.level, cell, &self.temperatures, &self.ages)
    }

    /// The temperatures as bytes.
    pub fn temperature_bytes(&self) -> Vec<u8> {
        self.temperatures.iter().flat_map(|temperature| temperature.to_le_bytes()).collect()
    }

    /// The bytes of its file.
    pub fn encode(&self) -> Vec<u8> {
        let mut bytes = MAGIC.to_vec();
        bytes.extend(VERSION.to_le_bytes());
        bytes.extend(self.level.to_le_bytes());
        bytes.extend(self.date.to_string().as_bytes());
        bytes.resize(HEADER, 0);
        bytes.extend(self.temperature_bytes());
        bytes.extend(&self.ages);
        bytes.extend(crc32(&bytes).to_le_bytes());
        bytes
    }

    /// The chart of a file's bytes, all of which are checked, or what is wrong with them.
    pub fn decode(bytes: &[u8]) -> Result<Chart, String> {
        let (level, cells) = header(bytes)?;
        let (front, checksum) = bytes.split_at(bytes.len() - CHECKSUM);
        if checksum != crc32(front).to_le_bytes() {
            return Err(damaged("its checksum doesn't match its bytes"));
        }
        let (header, arrays) = front.split_at(HEADER);
        let text = std::str::from_utf8(&header[16..26]).ok();
        let date = text.and_then(Date::parse).filter(|_| header[26..] == [0; 6]);
        let date = date.ok_or_else(|| damaged("its date is not one of the calendar"))?;
        let (temperatures, ages) = arrays.split_at(4 * cells);
        Ok(Chart { date, level, temperatures: floats(temperatures), ages: ages.to_vec() })
    }
}

/// The level and the number of cells, where magic, version, level and length are right.
fn header(bytes: &[u8]) -> Result<(u32, usize), String> {
    let begins = &bytes[..bytes.len().min(MAGIC.len())];
    if bytes.is_empty() || !MAGIC.starts_with(begins) {
        return Err(
            "is not a chart file ('ticklocust chart import' makes one of two plain arrays)"
                .to_string(),
        );
    }
    let word =
        |at: usize| bytes.get(at..at + 4).map(|b| u32::from_le_bytes([b[0], b[1], b[2], b[3]]));
    let cut = || damaged(&format!("it ends after {} bytes, within its header", bytes.len()));
    let version = word(8).ok_or_else(cut)?;
    if version != VERSION {
        return Err(format!(
            "is a chart file of version {version}; this command reads version {VERSION}"
        ));
    }
    let level = word(12).filter(|_| bytes.len() >= HEADER).ok_or_else(cut)?;
    let Some(cells) = chart_len(level) else {
        return Err(damaged(&format!(
            "it names level {level}, and charts end at {MAX_MASK_LEVEL}"
        )));
    };
    let length = HEADER + 5 * cells + CHECKSUM;
    if bytes.len() != length {
        let more = if bytes.len() > MOST { "more than " } else { "" };
        let has = bytes.len().min(MOST);
        return Err(damaged(&format!(
            "a chart of level {level} has {length} bytes, and it has {more}{has}"
        )));
    }
    Ok((level, cells))
}

fn damaged(what: &str) -> String {
    format!("is a damaged chart file: {what}. Restore a copy of it")
}

/// The temperatures of some bytes: four bytes each, the low one first. If the bytes end within one
/// there are none, so that the library refuses their length.
pub fn floats(bytes: &[u8]) -> Vec<f32> {
    let quads = bytes.chunks_exact(4);
    if !quads.remainder().is_empty() {
        return Vec::new();
    }
    quads.map(|b| f32::from_le_bytes([b[0], b[1], b[2], b[3]])).collect()
}

#[cfg(test)]
mod tests {
    use super::*;

    fn chart() -> Chart {
        let mut chart = Chart::gaps(0, Date::parse("2026-03-09").unwrap()).unwrap();
        chart.temperatures[1] = f32::from_bits(0x7FC0_1234);
        chart.ages[1] = 3;
        chart
    }

    #[test]
    fn the_layout() {
        let bytes = chart().encode();
        assert_eq!(bytes.len(), 76);
        assert_eq!(&bytes[..32], b"TICKLCST\x01\0\0\0\0\0\0\x002026-03-09\0\0\0\0\0\0");
        assert_eq!(bytes[36..40], 0x7FC0_1234_u32.to_le_bytes());
        assert_eq!(bytes[64..72], [255, 3, 255, 255, 255, 255, 255, 255]);
        assert_eq!(Chart::decode(&bytes).unwrap().encode(), bytes);
    }

    #[test]
    fn the_longest_is_the_most() {
        let chart = Chart::gaps(8, Date::parse("2026-03-09").unwrap()).unwrap();
        assert_eq!(chart.encode().len(), MOST);
        assert_eq!(Chart::gaps(9, chart.date).unwrap_err(), Refusal::Level);
    }

    #[test]
    fn every_flipped_bit_and_every_cut_is_seen() {
        let bytes = chart().encode();
        for bit in 0..8 * bytes.len() {
            let mut wrong = bytes.clone();
            wrong[bit / 8] ^= 1 << (bit % 8);
            assert!(Chart::decode(&wrong).is_err(), "bit {bit}");
        }
        for length in 0..bytes.len() {
            assert!(Chart::decode(&bytes[..length]).is_err(), "{length} bytes");
        }
        assert!(Chart::decode(&[&bytes[..], &[0]].concat()).is_err());
    }
}
