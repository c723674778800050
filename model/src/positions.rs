//! Position to cell and cell to centre (docs/RULES.md, 2 and 3).
//! Fractions are kept whole: 128 bits hold every product here.

use crate::cells::{
    cells_of, check_cell, check_level, children, exists, place_of, rows, whole, Kind, Place,
    MAX_CELL_LEVEL,
};
use crate::refusals::{refuse, Answer, LATITUDE, LONGITUDE};

/// A quarter turn in millionths of a degree.
pub const Q: i128 = 90_000_000;

/// Where octants 0 to 3 begin (and 4 to 7).
pub const BEGINNINGS: [i128; 4] = [0, Q, -2 * Q, -Q];

/// An exact fraction; the part under the line is above 0.
#[derive(Clone, Copy)]
struct Fraction {
    over: i128,
    under: i128,
}

impl Fraction {
    fn new(over: i128, under: i128) -> Fraction {
        Fraction { over, under }
    }

    fn plus(self, other: Fraction) -> Fraction {
        let over = self.over * other.under + other.over * self.under;
        Fraction::new(over, self.under * other.under)
    }

    fn at_least(self, whole: i64) -> bool {
        self.over >= i128::from(whole) * self.under
    }

    fn below(self, whole: i64) -> bool {
        !self.at_least(whole)
    }

    /// The whole part; no fraction here is below 0.
    fn whole_part(self) -> i128 {
        self.over / self.under
    }
}

/// Whether the cell holds the point (T, R) of its octant.
fn holds(place: Place, t: Fraction, r: Fraction) -> bool {
    let (a, b) = (place.row, place.col);
    match place.kind {
        Kind::Up => t.at_least(a) && r.at_least(b) && t.plus(r).below(a + b + 1),
        Kind::Down => t.below(a + 1) && r.below(b + 1) && t.plus(r).at_least(a + b + 1),
    }
}

/// The cell at a latitude and a longitude in millionths of a degree.
pub fn cell_at(level: u32, latitude: i32, longitude: i32) -> Answer<u32> {
    check_level(level, MAX_CELL_LEVEL)?;
    let (latitude, longitude) = (i128::from(latitude), i128::from(longitude));
    refuse(LATITUDE, !(-Q..=Q).contains(&latitude))?;
    refuse(LONGITUDE, !(-2 * Q..2 * Q).contains(&longitude))?;

    let begins_here = |&o: &usize| (BEGINNINGS[o]..BEGINNINGS[o] + Q).contains(&longitude);
    let quarter = (0..4).find(begins_here).expect("the four octants go all the way round");
    let octant = quarter as i64 + if latitude < 0 { 4 } else { 0 };
    let p = latitude.abs();
    let m = longitude - BEGINNINGS[quarter];

    // At a pole the cell is up(N−1,0), which is child 1 at every level.
    if p == Q {
        let tip = Place { row: rows(level) - 1, ..whole(octant) };
        return Ok(crate::cells::number_of(level, tip));
    }

    // One digit after the other: the child that holds the point at its own level.
    let mut place = whole(octant);
    let mut number = octant as u32;
    for k in 1..=level {
        let n = i128::from(rows(k));
        let t = Fraction::new(n * p, Q);
        let r = Fraction::new(n * m * (Q - p), Q * Q);
        let digit = (0..4).find(|&d| holds(children(place)[d], t, r));
        let digit = digit.expect("the children of a cell cover it");
        place = children(place)[digit];
        number = number * 4 + digit as u32;
    }
    assert!(exists(level, place) && u64::from(number) < cells_of(level));
    Ok(number)
}

/// The centre of a cell: latitude and longitude.
pub fn centre(level: u32, cell: u32) -> Answer<(i32, i32)> {
    check_level(level, MAX_CELL_LEVEL)?;
    check_cell(level, cell)?;
    let place = place_of(level, cell);
    let n = i128::from(rows(level));
    let (a, b) = (i128::from(place.row), i128::from(place.col));
    let s = i128::from(place.kind.thirds());
    let p = Fraction::new(Q * (3 * a + s), 3 * n).whole_part();
    let m = Fraction::new((3 * b + s) * Q * Q, 3 * n * (Q - p)).whole_part();
    let latitude = if place.octant < 4 { p } else { -p };
    let longitude = BEGINNINGS[place.octant as usize % 4] + m;
    Ok((narrow(latitude), narrow(longitude)))
}

fn narrow(value: i128) -> i32 {
    i32::try_from(value).expect("positions fit 32 bits")
}
