//! One round: all tasks once, shared out among the workers.

use std::sync::atomic::{AtomicUsize, Ordering};
use std::time::Instant;

use crate::compare::{Task, NUMBERS};
use crate::tally::{Met, Tally};
use model::random::Random;

const WORKERS: usize = 2;
/// A whole round with fewer calls has lost a part.
const FEWEST_CALLS: u64 = 10_000_000;

/// Runs the tasks; a difference ends the program at once. Whether a whole round had enough calls
/// and met every number that a call can answer.
pub fn round(tasks: &[Task], seed: u64, whole: bool) -> bool {
    println!("seed {seed}");
    let start = Instant::now();
    let next = AtomicUsize::new(0);
    let tallies: Vec<Tally> = std::thread::scope(|scope| {
        let work = || work(tasks, seed, &next);
        let workers: Vec<_> = (0..WORKERS).map(|_| scope.spawn(work)).collect();
        workers.into_iter().map(|worker| worker.join().expect("a worker failed")).collect()
    });
    let seconds = start.elapsed().as_secs_f64();
    let calls: u64 = tallies.iter().map(|tally| tally.calls).sum();
    println!("{calls} calls compared, no difference (seed {seed}, {seconds:.1} seconds)");
    !whole || is_whole(calls, &tallies)
}

/// One worker: takes the next task until none is left.
fn work(tasks: &[Task], seed: u64, next: &AtomicUsize) -> Tally {
    let mut tally = Tally::new(seed);
    loop {
        let Some(task) = tasks.get(next.fetch_add(1, Ordering::Relaxed)) else {
            return tally;
        };
        tally.task.clone_from(&task.name);
        (task.run)(&mut tally, &mut task_random(seed, &task.name));
    }
}

/// A task's own random numbers, from the round's seed and the task's name.
fn task_random(seed: u64, name: &str) -> Random {
    let mixed = name.bytes().fold(seed, |sum, byte| Random::new(sum ^ u64::from(byte)).draw());
    Random::new(mixed)
}

fn is_whole(calls: u64, tallies: &[Tally]) -> bool {
    let met = |name: &str, number: &u32| {
        let has = |met: &Met| met.get(name).is_some_and(|numbers| numbers.contains(number));
        tallies.iter().any(|tally| has(&tally.met))
    };
    let mut whole = true;
    for (name, numbers) in NUMBERS {
        for number in numbers.iter().filter(|number| !met(name, number)) {
            println!("but {name} never answered {number}");
            whole = false;
        }
    }
    if calls < FEWEST_CALLS {
        println!("but a whole round has at least {FEWEST_CALLS} calls");
        whole = false;
    }
    whole
}
