//! The two programs, run over many inputs; what they print is compared to the last byte.

use std::io::Write;
use std::process::{Command, Stdio};

use super::shapes;
use super::stored::{any_codes, damaged, forms, stored, Walk};
use crate::outcome::{Outcome, Slice};
use crate::tally::{Call, Tally};
use model::programs;
use model::random::Random;

type Run = fn(&mut Tally, &mut Random, &str);

/// The two programs, which are run over and over.
pub const TASKS: &[(&str, Run)] = &[("cell_lister", cell_lister), ("ring_counter", ring_counter)];

/// Runs a program on an input; its standard output.
fn run(program: &str, input: &[u8]) -> Vec<u8> {
    let mut child = Command::new(program)
        .stdin(Stdio::piped())
        .stdout(Stdio::piped())
        .spawn()
        .unwrap_or_else(|error| panic!("{program} does not run: {error}"));
    // A program may end before it has read all of an overlong input.
    let _ = child.stdin.take().expect("the input is piped").write_all(input);
    child.wait_with_output().expect("the program ends").stdout
}

fn compare(tally: &mut Tally, name: &'static str, folder: &str, input: &[u8], printed: String) {
    let outcome = |bytes| Outcome::model(Ok([]), vec![Slice::Bytes(bytes)]);
    let library = outcome(run(&format!("{folder}/{name}"), input));
    let arguments = |call: Call| call.bytes("input", input);
    tally.compare(name, arguments, &outcome(printed.into_bytes()), &library);
}

fn ring_counter(tally: &mut Tally, random: &mut Random, folder: &str) {
    let mut count = |input: &[u8]| {
        compare(tally, "ring_counter", folder, input, programs::ring_counter(input));
    };
    for rings in 0..=255 {
        for _ in 0..4 {
            let mask = shapes::any(random, 5);
            count(&[&[rings], &mask[..]].concat());
        }
    }
    for length in (0..1025).step_by(61).chain(1020..1032).chain([2049, 4096, 70_000, 200_000]) {
        for first in [0, 1, 64, 65, 255] {
            let mut input = random.bytes(length);
            input.iter_mut().take(1).for_each(|rings| *rings = first);
            count(&input);
        }
    }
    for _ in 0..600 {
        let rings = random.below(70) as u8;
        let mask = shapes::any(random, 5);
        let whole = [&[rings], &mask[..]].concat();
        let cut = random.index(whole.len());
        count(&whole);
        count(&whole[..cut]);
    }
}

fn cell_lister(tally: &mut Tally, random: &mut Random, folder: &str) {
    let mut list = |input: &[u8]| {
        compare(tally, "cell_lister", folder, input, programs::cell_lister(input));
    };
    list(&[4, 0, 2, 0x0B]);
    // Sound borders of all levels, cut, damaged, and with bytes added.
    for level in 0..=14 {
        for steps in (0..20).chain([100, 1000, 4000, 4095, 4096, 4097, 5000]) {
            let bytes = Walk::random(random, level, steps).bytes();
            list(&bytes);
            let place = random.index(bytes.len());
            list(&bytes[..place]);
            list(&[&bytes[..], &[0]].concat());
            let wrong = damaged(&bytes, place, random);
            list(&wrong[random.index(wrong.len())]);
            let codes = any_codes(random, steps);
            list(&stored(level, random.cell(level), &codes));
        }
    }
    // Numbers of all forms.
    for x in forms(2, 14) {
        for y in forms(5, 127) {
            let z = forms(1, 4096);
            list(&[&x[..], &y, &z[random.index(z.len())], &[4]].concat());
        }
    }
    // Overlong inputs, with a sound front or none.
    let sound = Walk::random(random, 14, 4096).bytes();
    for length in [1, 2, 100, 1544, 1545, 4096, 70_000, 200_000] {
        list(&[&sound[..], &vec![0; length]].concat());
        list(&vec![0; length]);
        list(&vec![0x80; length]);
        list(&random.bytes(length));
    }
}
