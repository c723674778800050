//! How answers are written.

use model::cells::{Kind, Place};

use crate::words::LETTERS;

/// Cells by number, or by address.
#[derive(Clone, Copy, PartialEq, Eq)]
pub enum Cells {
    Numbers,
    Addresses,
}

impl Cells {
    pub fn one(self, level: u32, cell: u32) -> String {
        if self == Cells::Numbers {
            return cell.to_string();
        }
        let digit = |i: u32| u64::from(cell) / 4u64.pow(i);
        let digits = (0..level).rev().map(|i| (digit(i) % 4).to_string());
        format!("@{}{}", digit(level), digits.collect::<String>())
    }

    pub fn list(self, level: u32, cells: &[u32]) -> String {
        words(cells.iter().map(|&cell| self.one(level, cell)))
    }

    /// The marked cells of a mask.
    pub fn mask(self, level: u32, mask: &[u8]) -> String {
        let marks = model::masks::marks(mask);
        let marked: Vec<u32> = (0..).zip(marks).filter(|(_, m)| *m).map(|(c, _)| c).collect();
        if marked.is_empty() {
            return "none".into();
        }
        self.list(level, &marked)
    }
}

pub fn words<T: ToString>(list: impl IntoIterator<Item = T>) -> String {
    list.into_iter().map(|item| item.to_string()).collect::<Vec<String>>().join(" ")
}

pub fn place(place: Place) -> String {
    let kind = match place.kind {
        Kind::Up => "up",
        Kind::Down => "down",
    };
    format!("octant {} {kind}({},{})", place.octant, place.row, place.col)
}

pub fn code(code: u32) -> String {
    LETTERS[code as usize..].chars().take(1).collect()
}

pub fn refused(number: u32) -> String {
    format!("refused {number}")
}
