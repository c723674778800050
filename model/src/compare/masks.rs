//! Growing, shrinking, joining, counting and within.

use super::mask_calls::{count, grow, join, shrink, within};
use super::shapes;
use crate::tally::Tally;
use model::masks::{mask_bytes, mask_of};
use model::random::Random;

/// Ring counts of every kind.
const RINGS: [u32; 22] =
    [0, 1, 2, 3, 4, 5, 6, 7, 8, 15, 16, 17, 31, 32, 33, 63, 64, 65, 66, 256, 65_536, u32::MAX];

/// So many masks of each level, from 0.
const MASKS: [u32; 8] = [1000, 3000, 2000, 1500, 1000, 700, 400, 40];

/// All masks of level 0 with all ring counts to 4 and all pairs of masks.
pub fn level_0(tally: &mut Tally, random: &mut Random) {
    for a in 0..=255 {
        for rings in (0..=4).chain([63, 64, 65, u32::MAX]) {
            grow(tally, 0, rings, &[a], &[random.byte()], &[random.byte()]);
            shrink(tally, 0, rings, &[a], &[random.byte()], &[random.byte()]);
        }
        count(tally, 0, &[a]);
        for b in 0..=255 {
            join(tally, 0, &[a], &[b], &[random.byte()]);
            within(tally, 0, &[a], &[b]);
        }
    }
}

/// All calls on one pair of masks, with slices that hold anything.
fn all_of(tally: &mut Tally, random: &mut Random, level: u32, rings: u32, masks: [&[u8]; 2]) {
    let [a, b] = masks;
    let bytes = mask_bytes(level);
    let (out, work) = (random.bytes(bytes), random.bytes(bytes));
    grow(tally, level, rings, a, &out, &work);
    shrink(tally, level, rings, a, &out, &work);
    count(tally, level, a);
    join(tally, level, a, b, &out);
    within(tally, level, a, b);
    // A part of b, and b with one cell less: nearly within.
    let part: Vec<u8> = a.iter().zip(b).map(|(x, y)| x & y).collect();
    within(tally, level, &part, b);
    let mut less = b.to_vec();
    less[random.index(bytes)] &= !(1 << random.below(8));
    within(tally, level, &part, &less);
    within(tally, level, b, &less);
}

pub fn random_masks(tally: &mut Tally, random: &mut Random, level: u32) {
    for _ in 0..MASKS[level as usize] {
        let (a, b) = (shapes::any(random, level), shapes::any(random, level));
        let rings = random.pick(&RINGS);
        all_of(tally, random, level, rings, [&a, &b]);
    }
}

/// Level 8: a few scattered cells, and a disc with holes.
pub fn full_size(tally: &mut Tally, random: &mut Random, rings: u32) {
    let level = 8;
    let few = mask_of(&shapes::few(random, level));
    let disc = shapes::disc(level, random.cell(level), 150);
    let holes = shapes::scattered(random, level, 1);
    let holed: Vec<bool> = disc.iter().zip(holes).map(|(&d, h)| d && !(h && rings < 16)).collect();
    let holed = mask_of(&holed);
    all_of(tally, random, level, rings, [&few, &holed]);
    all_of(tally, random, level, rings, [&holed, &few]);
}
