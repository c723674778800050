//! What a call leaves behind, from either program, in one form that can be compared and shown.

use model::refusals::Answer;

/// What an answer's place holds before a call. A refused call must leave it, and an accepted one
/// leaves it in the places that it has no answer for.
pub const UNWRITTEN: u32 = 0xDEAD_BEE5;

/// The refusal's number, or the answers as 32-bit words (signed numbers and floats by their bits).
#[derive(Clone, Copy, PartialEq, Eq, Debug)]
pub enum Said {
    Given([u32; 3]),
    Refused(u32),
    /// A refused call that wrote through an answer's pointer: never right.
    RefusedAndWritten(u32, [u32; 3]),
}

/// The final content of a slice; floats are kept as their bits.
#[derive(Clone, PartialEq, Eq, Debug)]
pub enum Slice {
    Bytes(Vec<u8>),
    Words(Vec<u32>),
}

#[derive(Clone, PartialEq, Eq, Debug)]
pub struct Outcome {
    pub said: Said,
    pub slices: Vec<Slice>,
}

impl Outcome {
    /// What the model says, with the slices as they stand afterwards.
    pub fn model<const N: usize>(answer: Answer<[u32; N]>, slices: Vec<Slice>) -> Outcome {
        let said = match answer {
            Ok(words) => {
                let mut all = [UNWRITTEN; 3];
                all[..N].copy_from_slice(&words);
                Said::Given(all)
            }
            Err(number) => Said::Refused(number),
        };
        Outcome { said, slices }
    }

    /// What the library says: its returned number, the answers' places and the slices.
    pub fn library(returned: u32, answers: [u32; 3], slices: Vec<Slice>) -> Outcome {
        let said = match returned {
            0 => Said::Given(answers),
            number if answers == [UNWRITTEN; 3] => Said::Refused(number),
            number => Said::RefusedAndWritten(number, answers),
        };
        Outcome { said, slices }
    }
}

/// Beyond so many bytes a slice is shown in part.
const SHOWN_WHOLE: usize = 4096;
/// So many elements are shown of a part.
const PART: usize = 32;

impl Slice {
    pub fn len(&self) -> usize {
        match self {
            Slice::Bytes(bytes) => bytes.len(),
            Slice::Words(words) => words.len(),
        }
    }

    /// The first place where two slices differ.
    pub fn first_difference(&self, other: &Slice) -> Option<usize> {
        match (self, other) {
            (Slice::Bytes(a), Slice::Bytes(b)) => difference(a, b),
            (Slice::Words(a), Slice::Words(b)) => difference(a, b),
            _ => Some(0),
        }
    }

    /// The slice in hex; beyond 4 KiB only the elements about a place.
    pub fn shown(&self, about: usize) -> String {
        let (hex, bytes): (Vec<String>, usize) = match self {
            Slice::Bytes(b) => (b.iter().map(|x| format!("{x:02x}")).collect(), b.len()),
            Slice::Words(w) => (w.iter().map(|x| format!("{x:08x}")).collect(), 4 * w.len()),
        };
        if bytes <= SHOWN_WHOLE {
            return format!("[{}] {}", hex.len(), hex.join(" "));
        }
        let from = about.saturating_sub(PART / 2).min(hex.len());
        let to = (from + PART).min(hex.len());
        format!("[{}] places {from} to {to}: .. {} ..", hex.len(), hex[from..to].join(" "))
    }
}

fn difference<T: PartialEq>(a: &[T], b: &[T]) -> Option<usize> {
    let place = a.iter().zip(b).position(|(x, y)| x != y);
    place.or_else(|| (a.len() != b.len()).then_some(a.len().min(b.len())))
}
