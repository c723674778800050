//! Stored borders to try: sound ones by walks, and bytes that go wrong in every way.

use model::borders::{code_bytes, number_bytes};
use model::cells::{number_of, place_of};
use model::random::Random;
use model::steps::{target, CODES};

/// A border: its level, its cells and the codes between them.
pub struct Walk {
    pub level: u32,
    pub cells: Vec<u32>,
    pub codes: Vec<u32>,
}

impl Walk {
    /// A random walk: at each cell one of the codes that lead somewhere.
    pub fn random(random: &mut Random, level: u32, steps: usize) -> Walk {
        let start = super::places::some_cell(random, level);
        let mut here = place_of(level, start);
        let mut walk = Walk { level, cells: vec![start], codes: Vec::new() };
        // A favoured code makes some walks go straight over edges.
        let favoured = random.pick(&[0, 1, 2, 3, 4, 8]);
        while walk.codes.len() < steps {
            let straight = random.chance(1, 2);
            let code = if straight { favoured } else { random.below(8) as u32 };
            if let Some(to) = target(level, here, code) {
                here = to;
                walk.codes.push(code);
                walk.cells.push(number_of(level, to));
            }
        }
        walk
    }

    pub fn bytes(&self) -> Vec<u8> {
        stored(self.level, self.cells[0], &self.codes)
    }
}

/// The stored form of any numbers and codes, whether they can be walked or not.
pub fn stored(level: u32, start: u32, codes: &[u32]) -> Vec<u8> {
    let mut bytes = number_bytes(level);
    bytes.extend(number_bytes(start));
    bytes.extend(number_bytes(codes.len() as u32));
    bytes.extend(code_bytes(codes));
    bytes
}

/// A number in a form that takes more bytes than needed.
pub fn long_form(value: u32, groups: usize) -> Vec<u8> {
    let mut bytes = number_bytes(value);
    while bytes.len() < groups {
        let last = bytes.len() - 1;
        bytes[last] |= 128;
        bytes.push(0);
    }
    bytes
}

/// Forms of a number: sound, above a bound, too long, past 32 bits, without an end.
pub fn forms(sound: u32, bound: u32) -> Vec<Vec<u8>> {
    vec![
        number_bytes(sound),
        number_bytes(bound),
        number_bytes(bound + 1),
        long_form(sound, 2.max(number_bytes(sound).len() + 1)),
        long_form(sound, 5),
        long_form(sound, 6),
        number_bytes(u32::MAX),
        vec![0xFF, 0xFF, 0xFF, 0xFF, 0x10],
        vec![0x80, 0x80, 0x80, 0x80, 0x10],
        vec![0xFF, 0xFF, 0xFF, 0xFF, 0x7F],
        vec![0x80; 5],
        vec![0xFF, 0xFF, 0xFF, 0xFF, 0xFF, 0],
        vec![0x80, 0x80, 0x80, 0x80, 0x01],
    ]
}

/// The bytes with one of them replaced, in many ways.
pub fn damaged(bytes: &[u8], place: usize, random: &mut Random) -> Vec<Vec<u8>> {
    let old = bytes[place];
    let flips = (0..8).map(|bit| old ^ (1 << bit));
    let others = [0, 1, 0x7F, 0x80, 0xFF, old.wrapping_add(1), random.byte(), random.byte()];
    let replace = |new| {
        let mut copy = bytes.to_vec();
        copy[place] = new;
        copy
    };
    flips.chain(others).map(replace).collect()
}

/// Codes that need not lead anywhere.
pub fn any_codes(random: &mut Random, length: usize) -> Vec<u32> {
    (0..length).map(|_| random.below(CODES.end.into()) as u32).collect()
}
