//! Compares the proved library, through its C interface, with the model of docs/RULES.md.
//!
//!     compare [long] [seed N] [only WORDS]
//!
//! One round with the given or the usual seed; with `long`, rounds with new seeds until stopped;
//! with `only`, the tasks whose names have these words; that none has is an error. Ends with status
//! 1 at the first difference.

mod compare;
mod library;
mod outcome;
mod round;
mod tally;

use std::time::{SystemTime, UNIX_EPOCH};

use model::random::Random;

const USUAL_SEED: u64 = 1_992;

/// What the command line asks for.
struct Asked {
    long: bool,
    seed: Option<u64>,
    only: Option<String>,
}

fn main() {
    let asked = asked();
    let folder = std::env::var("TICKLOCUST_BIN").ok().filter(|folder| !folder.is_empty());
    match &folder {
        Some(folder) => look_for_programs(folder),
        None => println!("TICKLOCUST_BIN is not set: the two programs are NOT compared"),
    }
    let mut tasks = compare::tasks(folder.as_deref());
    if let Some(words) = &asked.only {
        tasks = named(tasks, words);
    }
    let whole = asked.only.is_none();
    let mut seed = asked.seed.unwrap_or_else(|| if asked.long { new_seed() } else { USUAL_SEED });
    let mut seeds = Random::new(seed);
    loop {
        if !round::round(&tasks, seed, whole) {
            std::process::exit(1);
        }
        if !asked.long {
            return;
        }
        seed = seeds.draw();
    }
}

fn asked() -> Asked {
    let mut asked = Asked { long: false, seed: None, only: None };
    let mut words = std::env::args().skip(1);
    while let Some(word) = words.next() {
        match word.as_str() {
            "long" => asked.long = true,
            "seed" => match words.next().and_then(|seed| seed.parse().ok()) {
                Some(seed) => asked.seed = Some(seed),
                None => usage(),
            },
            "only" => asked.only = Some(words.next().unwrap_or_else(|| usage())),
            _ => usage(),
        }
    }
    asked
}

/// The programs are left out only where nobody named their folder.
fn look_for_programs(folder: &str) {
    for (name, _) in compare::programs::TASKS {
        let path = std::path::Path::new(folder).join(name);
        if !path.exists() {
            eprintln!("{} is not there: tools/programs builds it", path.display());
            std::process::exit(2);
        }
    }
}

/// The tasks whose names have these words. If there are none, nothing would be compared.
fn named(mut tasks: Vec<compare::Task>, words: &str) -> Vec<compare::Task> {
    let names: Vec<String> = tasks.iter().map(|task| format!("  {}", task.name)).collect();
    tasks.retain(|task| task.name.contains(words));
    if tasks.is_empty() {
        eprintln!("no task's name has '{words}'. The tasks:\n{}", names.join("\n"));
        std::process::exit(2);
    }
    tasks
}

fn usage() -> ! {
    eprintln!("usage: compare [long] [seed N] [only WORDS]");
    std::process::exit(2);
}

/// A seed that no earlier run had.
fn new_seed() -> u64 {
    let now = SystemTime::now().duration_since(UNIX_EPOCH).expect("the clock is past 1970");
    Random::new(now.as_nanos() as u64).draw()
}
