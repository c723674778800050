//! The border reader and writer.

use super::stored::{any_codes, damaged, forms, stored, Walk};
use crate::library::borders as library;
use crate::outcome::{Outcome, Slice};
use crate::tally::{Call, Tally};
use model::borders::{self, MAX_CODES};
use model::cells::cells_of;
use model::random::Random;

type Run = fn(&mut Tally, &mut Random);

pub const TASKS: [(&str, Run); 6] = [
    ("borders of all lengths", all_lengths),
    ("damaged borders", damaged_borders),
    ("forms of numbers in borders", number_forms),
    ("random bytes as borders", random_bytes),
    ("long borders", long_borders),
    ("cells that make no border", writer_faults),
];

/// The slice with its front replaced and its rest left.
fn front<T: Copy>(slice: &[T], new: &[T]) -> Vec<T> {
    [new, slice.get(new.len()..).unwrap_or(&[])].concat()
}

/// Reads into a slice of `room` places that hold anything.
fn read(tally: &mut Tally, random: &mut Random, bytes: &[u8], room: usize) {
    let slice: Vec<u32> = (0..room).map(|_| random.word()).collect();
    let (answer, cells) = match borders::read(bytes, room) {
        Ok((level, cells)) => (Ok([level, cells.len() as u32]), front(&slice, &cells)),
        Err(number) => (Err(number), slice.clone()),
    };
    let model = Outcome::model(answer, vec![Slice::Bytes(bytes.to_vec()), Slice::Words(cells)]);
    let library = library::read(bytes, &slice);
    let arguments = |call: Call| call.bytes("bytes", bytes).words("cells", &slice);
    tally.compare("ticklocust_border_read", arguments, &model, &library);
}

/// Writes into a slice of `room` places that hold anything.
fn write(tally: &mut Tally, random: &mut Random, level: u32, cells: &[u32], room: usize) {
    let slice = random.bytes(room);
    let (answer, bytes) = match borders::write(level, cells, room) {
        Ok(bytes) => (Ok([bytes.len() as u32]), front(&slice, &bytes)),
        Err(number) => (Err(number), slice.clone()),
    };
    let model = Outcome::model(answer, vec![Slice::Words(cells.to_vec()), Slice::Bytes(bytes)]);
    let library = library::write(level, cells, &slice);
    let arguments =
        |call: Call| call.number("level", level).words("cells", cells).bytes("bytes", &slice);
    tally.compare("ticklocust_border_write", arguments, &model, &library);
}

/// A sound border of each length to 4,096 codes; room one too little, exact and more.
fn all_lengths(tally: &mut Tally, random: &mut Random) {
    for steps in 0..=MAX_CODES {
        let level = random.below(15) as u32;
        let walk = Walk::random(random, level, steps);
        let bytes = walk.bytes();
        read(tally, random, &bytes, steps + 1);
        write(tally, random, level, &walk.cells, bytes.len());
        if steps % 16 < 2 || steps > MAX_CODES - 16 {
            for room in [steps, steps + 2, steps + 100] {
                read(tally, random, &bytes, room);
            }
            for room in [0, bytes.len() - 1, bytes.len() + 1, bytes.len() + 100] {
                write(tally, random, level, &walk.cells, room);
            }
        }
    }
}

/// Short borders of all levels, each byte replaced in many ways, cut at each length, with bytes
/// added; and with room or without.
fn damaged_borders(tally: &mut Tally, random: &mut Random) {
    for level in 0..=14 {
        for steps in (0..=24).chain([40, 41, 42, 43, 127, 128, 129]) {
            let bytes = Walk::random(random, level, steps).bytes();
            for place in 0..bytes.len() {
                for wrong in damaged(&bytes, place, random) {
                    read(tally, random, &wrong, steps + 1);
                }
                read(tally, random, &bytes[..place], steps + 1);
                read(tally, random, &bytes[..place], 0);
            }
            for added in [&[0][..], &[1], &[0x80], &[0xFF], &[0, 0], &[0, 0, 1]] {
                let longer = [&bytes, added].concat();
                read(tally, random, &longer, steps + 1);
                read(tally, random, &longer, steps);
            }
            read(tally, random, &bytes, steps);
        }
    }
}

/// Level, start and count in all forms with each other, before tails of all kinds.
fn number_forms(tally: &mut Tally, random: &mut Random) {
    for level in [0, 3, 14] {
        let end = cells_of(level) as u32;
        let levels = forms(level, 14);
        let starts = forms(random.cell(level), end - 1);
        let counts = [forms(0, 4096), forms(2, 4095)].concat();
        for (x, y) in levels.iter().flat_map(|x| starts.iter().map(move |y| (x, y))) {
            for z in &counts {
                let front = [&x[..], y, z].concat();
                for tail in [&[][..], &[0], &[0x09], &[0x1B], &[0x40], &[0x80], &[0, 0]] {
                    let bytes = [&front[..], tail].concat();
                    let room = random.pick(&[0, 1, 2, 3, 5000]);
                    read(tally, random, &bytes, room);
                }
            }
        }
        // The same numbers in front of all the codes they ask for.
        let tail = vec![0; 1536];
        for z in forms(4096, 4095) {
            let bytes = [&levels[0][..], &starts[0], &z, &tail].concat();
            read(tally, random, &bytes, 4097);
        }
    }
}

/// Bytes that nobody wrote, with a small level in front so that more than the first is read.
fn random_bytes(tally: &mut Tally, random: &mut Random) {
    for _ in 0..150_000 {
        let length = random.index(16);
        let mut bytes = random.bytes(length);
        for byte in bytes.iter_mut().take(3) {
            *byte %= random.pick(&[15, 16, 128, 255]);
        }
        let room = random.index(40);
        read(tally, random, &bytes, room);
    }
    // Codes that may lead nowhere at some place, for 7 and for 5 before it.
    for _ in 0..60_000 {
        let level = random.below(15) as u32;
        let start = super::places::some_cell(random, level);
        let length = random.index(12);
        let bytes = stored(level, start, &any_codes(random, length));
        let room = random.pick(&[length, length + 1, length + 1, length + 2]);
        read(tally, random, &bytes, room);
    }
}

/// About 4,096 codes: one more, cut, damaged and with bytes added; a step that fails at the end.
fn long_borders(tally: &mut Tally, random: &mut Random) {
    for level in 0..=14 {
        for steps in MAX_CODES - 2..=MAX_CODES + 3 {
            let mut walk = Walk::random(random, level, steps);
            let bytes = walk.bytes();
            read(tally, random, &bytes, steps + 1);
            write(tally, random, level, &walk.cells, bytes.len());
            for _ in 0..10 {
                let place = random.index(bytes.len());
                read(tally, random, &bytes[..place], steps + 1);
                let wrong = damaged(&bytes, place, random);
                let chosen = random.index(wrong.len());
                read(tally, random, &wrong[chosen], steps + 1);
            }
            read(tally, random, &[&bytes[..], &[0]].concat(), steps + 1);
            let last = walk.codes.len() - 1;
            for code in 0..8 {
                walk.codes[last] = code;
                read(tally, random, &walk.bytes(), steps + 1);
            }
        }
    }
}

/// Levels, cells and room that are refused, alone and together.
fn writer_faults(tally: &mut Tally, random: &mut Random) {
    for level in super::positions::levels() {
        for length in [0, 1, 2, 3, 9, 17, 4096, 4097, 4098, 4099] {
            let base = level.min(14);
            let walk = Walk::random(random, base, length.max(1) - 1);
            let sound = if length == 0 { Vec::new() } else { walk.cells.clone() };
            let mut lists = vec![sound.clone()];
            for _ in 0..if length > 100 { 2 } else { 8 } {
                // A cell out of range, a cell apart, and both in either order.
                let past = cells_of(base) as u32 + random.below(3) as u32;
                for (first, second) in [(past, past), (random.cell(base), past)] {
                    let mut list = sound.clone();
                    if let Some(place) = (length > 0).then(|| random.index(length)) {
                        list[place] = first;
                        lists.push(list.clone());
                        list[random.index(length)] = second;
                        lists.push(list);
                    }
                }
                let mut apart = sound.clone();
                if length > 1 {
                    let place = random.index(length - 1);
                    let elsewhere = random.cell(base);
                    apart[place + 1] = random.pick(&[apart[place], elsewhere]);
                    lists.push(apart);
                }
            }
            let exact = walk.bytes().len();
            for list in &lists {
                for room in [0, exact - 1, exact, exact + 7] {
                    write(tally, random, level, list, room);
                }
            }
        }
    }
}
