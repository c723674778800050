//! The published examples of source documents 000 and 003.

use super::address;
use crate::borders;
use crate::cells::{cells_of, place_of, rows};
use crate::digits;
use crate::positions::cell_at;
use crate::steps::{direct, step};
use crate::touching::Level;

/// Source 000, table 1 (b).
const LAKE: &str = "210310103 210310131 210313210 210313213 210313002 210313012 210313010 \
    210313011 210313322 210303322 210303320 210303321 210303302 210303312 210303003 210303013 \
    210303010 210303011 210303233 210303230 210303231 210303203 210303202 210303221 210303220 \
    210303223 210303232 210313232 210313201 210313200 210313202 210313212 210310103";
const LAKE_CODES: &str = "r e r e t r t r t r t r t w t l t l l t l w l t r e t l t l t w";

/// Source 000, table 1 (a): degrees, the address at level 8, and whether the list has it.
const SHORE: [(&str, &str, &str, bool); 28] = [
    ("61.17", "-117.00", "210310103", true),
    ("60.83", "-116.00", "210313210", true),
    ("60.83", "-115.25", "210313210", true),
    ("61.00", "-114.42", "210313021", false),
    ("60.92", "-113.92", "210313002", true),
    ("61.25", "-113.75", "210313012", true),
    ("61.42", "-112.92", "210313010", true),
    ("61.58", "-112.17", "210313322", true),
    ("62.08", "-111.75", "210303322", true),
    ("62.33", "-110.92", "210303321", true),
    ("62.42", "-109.83", "210303300", false),
    ("62.67", "-110.17", "210303312", true),
    ("62.67", "-109.00", "210303313", false),
    ("62.83", "-110.00", "210303312", true),
    ("62.83", "-110.75", "210303031", false),
    ("62.67", "-111.58", "210303003", true),
    ("62.42", "-111.92", "210303010", true),
    ("62.08", "-112.42", "210303011", true),
    ("62.00", "-113.08", "210303233", true),
    ("62.17", "-113.83", "210303230", true),
    ("62.42", "-114.17", "210303200", false),
    ("62.42", "-115.33", "210303221", true),
    ("62.17", "-115.08", "210303223", true),
    ("61.83", "-114.50", "210313232", true),
    ("61.75", "-115.25", "210313223", false),
    ("61.42", "-115.33", "210313200", true),
    ("61.17", "-115.83", "210313212", true),
    ("61.17", "-117.00", "210310103", true),
];

fn millionths(degrees: &str) -> i32 {
    degrees.replace('.', "").parse::<i32>().unwrap() * 10_000
}

#[test]
fn the_lake_is_one_border() {
    let cells: Vec<u32> = LAKE.split_whitespace().map(|a| address(a).1).collect();
    let code = |letter: &str| "tlrewTEW".find(letter).unwrap() as u32;
    let codes: Vec<u32> = LAKE_CODES.split_whitespace().map(code).collect();
    assert_eq!((cells.len(), codes.len()), (33, 32));
    for (i, &code) in codes.iter().enumerate() {
        assert_eq!(step(8, cells[i], code), Ok(cells[i + 1]));
    }
    let bytes = borders::write(8, &cells, 100).unwrap();
    assert_eq!(borders::read(&bytes, 33), Ok((8, cells)));
}

#[test]
fn the_shore_lies_in_the_lake_or_touches_it() {
    let lake: Vec<u32> = LAKE.split_whitespace().map(|a| address(a).1).collect();
    for (latitude, longitude, at, listed) in SHORE {
        let cell = address(at).1;
        assert_eq!(cell_at(8, millionths(latitude), millionths(longitude)), Ok(cell));
        assert_eq!(lake.contains(&cell), listed);
        let near = &Level::of(8).touching[cell as usize];
        assert!(listed || near.iter().any(|c| lake.contains(c)));
    }
}

#[test]
fn centroids_of_source_003() {
    // X and Y in the source's units, with s as in a cell's centre.
    for (cell, x, y) in [("03023", 23, 11), ("01003", 17, 31)] {
        let (level, number) = address(cell);
        let place = place_of(level, number);
        let s = place.kind.thirds();
        let (row, col) = (3 * place.row + s, 3 * place.col + s);
        assert_eq!((row, 2 * col + row), (y, 3 * x));
    }
}

#[test]
fn a_block_in_troy() {
    assert_eq!(cell_at(13, 42_730_000, -73_690_000), Ok(address("30223022113013").1));
}

#[test]
fn the_digit_rules() {
    for level in 0..=5 {
        for cell in 0..cells_of(level) as u32 {
            for code in digits::CODES {
                let to = step(level, cell, code).ok();
                assert_eq!(to, digits::step(level, cell, code), "{level} {cell} {code}");
            }
        }
    }
}

#[test]
fn the_average_difference_of_numbers() {
    for level in 1..=8 {
        let octant = 4u32.pow(level);
        let pairs: Vec<u64> = (0..octant)
            .flat_map(|cell| direct(level, cell).map(|to| (cell, to)))
            .filter(|&(_, to)| to < octant)
            .map(|(cell, to)| u64::from(cell.abs_diff(to)))
            .collect();
        assert_eq!(pairs.iter().sum::<u64>(), rows(level) as u64 * pairs.len() as u64);
    }
}
