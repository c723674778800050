//! One call each to the masks' part of the library and of the model, compared. Slices that are
//! written are lent with some content, to see that a refusal leaves it.

use crate::library::masks as library;
use crate::outcome::{Outcome, Slice};
use crate::tally::{Call, Tally};
use model::refusals::Answer;
use model::{fills, masks};

fn bytes(slices: &[&[u8]]) -> Vec<Slice> {
    slices.iter().map(|slice| Slice::Bytes(slice.to_vec())).collect()
}

/// What a growing or shrinking leaves: when accepted the new mask, and zeros to work in.
fn ringed(answer: Answer<Vec<u8>>, mask: &[u8], out: &[u8], work: &[u8]) -> Outcome {
    match answer {
        Ok(new) => Outcome::model(Ok([]), bytes(&[mask, &new, &vec![0; work.len()]])),
        Err(number) => Outcome::model::<0>(Err(number), bytes(&[mask, out, work])),
    }
}

fn ringed_arguments(call: Call, level: u32, rings: u32, slices: [&[u8]; 3]) -> Call {
    let [mask, out, work] = slices;
    let call = call.number("level", level).number("rings", rings);
    call.bytes("mask", mask).bytes("out", out).bytes("work", work)
}

pub fn grow(tally: &mut Tally, level: u32, rings: u32, mask: &[u8], out: &[u8], work: &[u8]) {
    let answer = masks::grow(level, rings, mask, out.len(), work.len());
    let model = ringed(answer, mask, out, work);
    let library = library::grow(level, rings, mask, out, work);
    let arguments = |call| ringed_arguments(call, level, rings, [mask, out, work]);
    tally.compare("ticklocust_grow", arguments, &model, &library);
}

pub fn shrink(tally: &mut Tally, level: u32, rings: u32, mask: &[u8], out: &[u8], work: &[u8]) {
    let answer = masks::shrink(level, rings, mask, out.len(), work.len());
    let model = ringed(answer, mask, out, work);
    let library = library::shrink(level, rings, mask, out, work);
    let arguments = |call| ringed_arguments(call, level, rings, [mask, out, work]);
    tally.compare("ticklocust_shrink", arguments, &model, &library);
}

pub fn join(tally: &mut Tally, level: u32, a: &[u8], b: &[u8], out: &[u8]) {
    let model = match masks::join(level, a, b, out.len()) {
        Ok(joined) => Outcome::model(Ok([]), bytes(&[a, b, &joined])),
        Err(number) => Outcome::model::<0>(Err(number), bytes(&[a, b, out])),
    };
    let library = library::join(level, a, b, out);
    let arguments =
        |call: Call| call.number("level", level).bytes("a", a).bytes("b", b).bytes("out", out);
    tally.compare("ticklocust_join", arguments, &model, &library);
}

pub fn count(tally: &mut Tally, level: u32, mask: &[u8]) {
    let answer = masks::count(level, mask).map(|count| [count]);
    let model = Outcome::model(answer, bytes(&[mask]));
    let library = library::count(level, mask);
    let arguments = |call: Call| call.number("level", level).bytes("mask", mask);
    tally.compare("ticklocust_count", arguments, &model, &library);
}

pub fn within(tally: &mut Tally, level: u32, a: &[u8], b: &[u8]) {
    let answer = masks::within(level, a, b).map(|lacking| [lacking]);
    let model = Outcome::model(answer, bytes(&[a, b]));
    let library = library::within(level, a, b);
    let arguments = |call: Call| call.number("level", level).bytes("a", a).bytes("b", b);
    tally.compare("ticklocust_within", arguments, &model, &library);
}

pub fn fill(tally: &mut Tally, level: u32, border: &[u8], outside: u32, out: &[u8]) {
    let model = match fills::fill(level, border, outside, out.len()) {
        Ok(filled) => Outcome::model(Ok([]), bytes(&[border, &filled])),
        Err(number) => Outcome::model::<0>(Err(number), bytes(&[border, out])),
    };
    let library = library::fill(level, border, outside, out);
    let arguments = |call: Call| {
        let call = call.number("level", level).bytes("border", border);
        call.number("outside", outside).bytes("out", out)
    };
    tally.compare("ticklocust_fill", arguments, &model, &library);
}
