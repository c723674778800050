//! Steps by the digits of a cell number alone: the rules of source 000, section 2, and source 003,
//! section 5. Nothing else here uses them; they are compared with the steps.

/// The codes that the sources have a rule for.
pub const CODES: [u32; 6] = [0, 1, 2, 5, 6, 7];

/// For each digit the one that takes its place, and whether the carrying stops there.
type Table = [(u32, bool); 4];
const TOP: Table = [(1, true), (0, true), (2, false), (3, false)];
const LEFT: Table = [(2, true), (3, false), (1, false), (0, true)];
const RIGHT: Table = [(3, true), (2, false), (0, true), (1, false)];

/// The last digit changes by the table, and carries to the left until a digit stops it. None when
/// no digit does.
fn inside(level: u32, cell: u32, table: Table) -> Option<u32> {
    let mut result = cell;
    for weight in (0..level).map(|i| 4u32.pow(i)) {
        let digit = cell / weight % 4;
        let (to, stops) = table[digit as usize];
        result = result - digit * weight + to * weight;
        if stops {
            return Some(result);
        }
    }
    None
}

/// Over an edge one digit becomes another wherever it is, and the octant changes.
fn over(level: u32, cell: u32, octant: u32, from: u32, to: u32) -> u32 {
    let digits = (0..level).map(|i| (cell / 4u32.pow(i) % 4, 4u32.pow(i)));
    let exchanged = digits.map(|(digit, weight)| if digit == from { to } else { digit } * weight);
    octant * 4u32.pow(level) + exchanged.sum::<u32>()
}

/// The cell that a code leads to. T, E and W exist where t, r and l don't.
pub fn step(level: u32, cell: u32, code: u32) -> Option<u32> {
    let octant = cell / 4u32.pow(level);
    let beside = |turn: u32| octant / 4 * 4 + (octant + turn) % 4;
    let (table, across) = match code {
        0 => return inside(level, cell, TOP),
        1 => return inside(level, cell, LEFT),
        2 => return inside(level, cell, RIGHT),
        5 => (TOP, over(level, cell, (octant + 4) % 8, 0, 0)),
        6 => (RIGHT, over(level, cell, beside(1), 3, 2)),
        7 => (LEFT, over(level, cell, beside(3), 2, 3)),
        _ => return None,
    };
    inside(level, cell, table).is_none().then_some(across)
}
