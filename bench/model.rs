//! Times the model on the same inputs. It is written to be plain, not fast. Its
//! tables of a mask level's cells are made before the timing. Of the single calls only the first
//! piece is made.
//!   model FOLDER of the inputs

use std::hint::black_box;

use model::refusals::Answer;

const CALL_LEVEL: u32 = 14;
const MASK_LEVELS: [u32; 3] = [6, 7, 8];
const CODES: f64 = 4096.0;
const DAY_LIMIT: u32 = 10;
const PIECE: usize = 1 << 15;
/// Latitude and longitude of the cell outside the filled region.
const OUTSIDE: (i32, i32) = (-70_000_000, -170_000_000);

/// The ring counts that are measured at a level.
fn ring_counts(level: u32) -> &'static [u32] {
    match level {
        8 => &[1, 4, 16, 64],
        _ => &[16],
    }
}

struct Inputs(String);

impl Inputs {
    fn bytes(&self, name: &str) -> Vec<u8> {
        std::fs::read(format!("{}/{name}", self.0)).expect(name)
    }

    fn level(&self, name: &str, level: u32) -> Vec<u8> {
        self.bytes(&format!("{name}-{level}"))
    }

    fn words(bytes: &[u8]) -> Vec<u32> {
        let word = |four: &[u8]| u32::from_le_bytes(four.try_into().expect("four bytes"));
        bytes.chunks(4).map(word).collect()
    }

    fn floats(&self, name: &str, level: u32) -> Vec<f32> {
        Inputs::words(&self.level(name, level)).into_iter().map(f32::from_bits).collect()
    }
}

/// The answer of a call that must be accepted.
fn given<T>(answer: Answer<T>) -> T {
    answer.unwrap_or_else(|number| panic!("refused {number}"))
}

#[repr(C)]
struct Timespec {
    seconds: i64,
    nanoseconds: i64,
}

extern "C" {
    fn clock_gettime(clock: i32, time: *mut Timespec) -> i32;
}

/// Seconds of processor time that this thread has had: what other programs take is not in it.
fn now() -> f64 {
    const CLOCK_THREAD_CPUTIME_ID: i32 = 3;
    let mut time = Timespec { seconds: 0, nanoseconds: 0 };
    // SAFETY: the pointer is to this frame, and the struct is the C library's on x86-64 Linux.
    unsafe { clock_gettime(CLOCK_THREAD_CPUTIME_ID, &mut time) };
    time.seconds as f64 + time.nanoseconds as f64 * 1e-9
}

/// Seconds of the best of some runs, and what the last one gave.
fn best<T>(runs: u32, mut run: impl FnMut() -> T) -> (f64, T) {
    let mut timed = || {
        let start = now();
        let result = black_box(run());
        (now() - start, result)
    };
    let mut least = timed();
    for _ in 1..runs {
        let (seconds, result) = timed();
        least = (least.0.min(seconds), result);
    }
    least
}

/// One row: its key, the time in the row's unit, and a number that depends on all results.
fn row(key: &str, time: f64, sum: u64) {
    println!("{key} {time:.6} {sum}");
}

/// A row for single calls: what they answer is added up.
fn call_row(key: &str, call: impl Fn(usize) -> u64) {
    let calls = || (0..PIECE).map(&call).fold(0u64, u64::wrapping_add);
    let (seconds, sum) = best(1, calls);
    row(key, seconds * 1e9 / PIECE as f64, sum);
}

fn sum_of(bytes: &[u8]) -> u64 {
    bytes.iter().zip(1u64..).map(|(&byte, i)| i * u64::from(byte)).sum()
}

fn calls(inputs: &Inputs) {
    let positions: Vec<i32> =
        Inputs::words(&inputs.bytes("positions")).into_iter().map(|word| word as i32).collect();
    let codes = inputs.bytes("codes");
    let cell_at = |i: usize| {
        given(model::positions::cell_at(CALL_LEVEL, positions[2 * i], positions[2 * i + 1]))
    };
    let cells: Vec<u32> = (0..PIECE).map(cell_at).collect();

    call_row("cell_at", |i| u64::from(cell_at(i)));
    call_row("centre", |i| {
        let (latitude, longitude) = given(model::positions::centre(CALL_LEVEL, cells[i]));
        u64::from((latitude as u32).wrapping_add(longitude as u32))
    });
    call_row("step", |i| {
        u64::from(given(model::steps::step(CALL_LEVEL, cells[i], u32::from(codes[i]))))
    });
    call_row("touching", |i| {
        let (list, count) = given(model::touching::touching(CALL_LEVEL, cells[i], 12));
        list.iter().map(|&cell| u64::from(cell)).sum::<u64>() + u64::from(count)
    });
}

fn masks(inputs: &Inputs, level: u32) {
    model::touching::Level::of(level);
    let mask = inputs.level("discs", level);
    let border = inputs.level("border", level);
    let length = mask.len();
    for &rings in ring_counts(level) {
        let grow = || given(model::masks::grow(level, rings, &mask, length, length));
        let (seconds, out) = best(3, grow);
        row(&format!("grow-{level}-{rings}"), seconds * 1e3, sum_of(&out));
    }
    let outside = given(model::positions::cell_at(level, OUTSIDE.0, OUTSIDE.1));
    let (seconds, out) = best(3, || given(model::fills::fill(level, &border, outside, length)));
    row(&format!("fill-{level}"), seconds * 1e3, sum_of(&out));
}

fn chart(inputs: &Inputs, level: u32) {
    let cloud = inputs.level("cloud", level);
    let news = inputs.floats("news", level);
    let temperatures = inputs.floats("temperatures", level);
    let ages = inputs.level("ages", level);
    let day = || given(model::charts::day(level, DAY_LIMIT, &news, &cloud, &temperatures, &ages));
    let (seconds, day) = best(3, day);
    let ends = [day.summary.coldest, day.summary.warmest];
    let bits: u64 = day.temperatures.iter().chain(&ends).map(|t| u64::from(t.to_bits())).sum();
    let sum = sum_of(&day.ages) + u64::from(day.summary.count) + bits;
    row(&format!("day-{level}"), seconds * 1e9 / ages.len() as f64, sum);
}

fn borders(inputs: &Inputs) {
    let bytes = inputs.bytes("border-bytes");
    let cells = Inputs::words(&inputs.bytes("border-cells"));
    let (seconds, (level, read)) = best(3, || given(model::borders::read(&bytes, cells.len())));
    assert!(read == cells, "border read");
    row("border_read", seconds * 1e9 / CODES, read.len() as u64);
    let write = || given(model::borders::write(level, &cells, bytes.len()));
    let (seconds, written) = best(3, write);
    assert!(written == bytes, "border written");
    row("border_write", seconds * 1e9 / CODES, written.len() as u64);
}

fn main() {
    let inputs = Inputs(std::env::args().nth(1).expect("model FOLDER"));
    calls(&inputs);
    for level in MASK_LEVELS {
        masks(&inputs, level);
    }
    for level in MASK_LEVELS {
        chart(&inputs, level);
    }
    borders(&inputs);
}
