//! Counts the calls compared, and ends everything at the first difference.

use std::collections::{BTreeSet, HashMap};
use std::sync::Mutex;

use crate::outcome::{Outcome, Said, Slice, UNWRITTEN};

/// A call with its arguments, put together only when it must be shown.
pub struct Call {
    name: &'static str,
    arguments: Vec<(&'static str, String)>,
    /// Large slices are shown about this place, where the outcomes differ first.
    about: usize,
}

impl Call {
    pub fn number(mut self, name: &'static str, value: impl Into<i64>) -> Call {
        self.arguments.push((name, value.into().to_string()));
        self
    }

    pub fn bytes(self, name: &'static str, value: &[u8]) -> Call {
        self.slice(name, Slice::Bytes(value.to_vec()))
    }

    pub fn words(self, name: &'static str, value: &[u32]) -> Call {
        self.slice(name, Slice::Words(value.to_vec()))
    }

    fn slice(mut self, name: &'static str, value: Slice) -> Call {
        self.arguments.push((name, value.shown(self.about)));
        self
    }
}

/// For each call the refusals met; 0 stands for accepted.
pub type Met = HashMap<&'static str, BTreeSet<u32>>;

/// One worker's count, with what is needed to run its task again.
pub struct Tally {
    pub calls: u64,
    pub met: Met,
    pub seed: u64,
    pub task: String,
}

/// Only one difference is printed, also when both workers meet one.
static PRINTING: Mutex<()> = Mutex::new(());

impl Tally {
    pub fn new(seed: u64) -> Tally {
        Tally { calls: 0, met: Met::new(), seed, task: String::new() }
    }

    /// Every comparison goes through here.
    pub fn compare(
        &mut self,
        name: &'static str,
        arguments: impl FnOnce(Call) -> Call,
        model: &Outcome,
        library: &Outcome,
    ) {
        self.calls += 1;
        if model != library {
            let mut pairs = model.slices.iter().zip(&library.slices);
            let about = pairs.find_map(|(a, b)| a.first_difference(b)).unwrap_or(0);
            let call = Call { name, arguments: Vec::new(), about };
            self.differ(&arguments(call), model, library);
        }
        let number = if let Said::Refused(number) = model.said { number } else { 0 };
        self.met.entry(name).or_default().insert(number);
    }

    fn differ(&self, call: &Call, model: &Outcome, library: &Outcome) -> ! {
        let _alone = PRINTING.lock();
        println!("DIFFERENCE in {} (task \"{}\", seed {})", call.name, self.task, self.seed);
        for (name, value) in &call.arguments {
            println!("  {name} = {value}");
        }
        println!("  model: {}", said(model.said));
        println!("  library:        {}", said(library.said));
        if model.slices.len() != library.slices.len() {
            println!("  slices: {} and {}", model.slices.len(), library.slices.len());
        }
        for (i, (a, b)) in model.slices.iter().zip(&library.slices).enumerate() {
            if let Some(place) = a.first_difference(b) {
                let lengths = (a.len(), b.len());
                println!("  slice {i} differs first at place {place} (lengths {lengths:?})");
                println!("    model: {}", a.shown(place));
                println!("    library:        {}", b.shown(place));
            }
        }
        std::process::exit(1);
    }
}

/// Words as plain, signed and float, since a word may be any of these.
fn said(said: Said) -> String {
    let word = |word: u32| match word {
        UNWRITTEN => "nothing written".to_string(),
        _ => format!("{word} (signed {}, float {:?})", word as i32, f32::from_bits(word)),
    };
    match said {
        Said::Given(words) => format!("accepted; {}", words.map(word).join("; ")),
        Said::Refused(number) => format!("refused {number}"),
        Said::RefusedAndWritten(number, words) => {
            format!("refused {number}, but answers were written: {}", words.map(word).join("; "))
        }
    }
}
