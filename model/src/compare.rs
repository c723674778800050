//! The comparison's tasks. Each task has its own random numbers, drawn from the round's seed, so
//! that it runs the same calls whichever worker takes it.

mod borders;
mod calls;
mod chart_calls;
mod charts;
mod faults;
mod fills;
mod mask_calls;
mod masks;
mod places;
mod positions;
pub mod programs;
mod shapes;
mod stored;

use crate::tally::Tally;
use model::random::Random;

type Run = Box<dyn Fn(&mut Tally, &mut Random) + Send + Sync>;

pub struct Task {
    pub name: String,
    pub run: Run,
}

fn task(name: String, run: impl Fn(&mut Tally, &mut Random) + Send + Sync + 'static) -> Task {
    Task { name, run: Box::new(run) }
}

/// The numbers that each call can answer, 0 for accepted. A round must meet them all.
pub const NUMBERS: &[(&str, &[u32])] = &[
    ("ticklocust_cell_at", &[0, 1, 2, 3]),
    ("ticklocust_centre", &[0, 1, 4]),
    ("ticklocust_step", &[0, 1, 4, 7]),
    ("ticklocust_code", &[0, 1, 4, 7]),
    ("ticklocust_touching", &[0, 1, 4, 5]),
    ("ticklocust_border_read", &[0, 1, 4, 5, 7, 9, 10, 11, 12]),
    ("ticklocust_border_write", &[0, 1, 4, 5, 7, 9]),
    ("ticklocust_grow", &[0, 1, 5, 6]),
    ("ticklocust_shrink", &[0, 1, 5, 6]),
    ("ticklocust_join", &[0, 1, 5]),
    ("ticklocust_count", &[0, 1, 5]),
    ("ticklocust_within", &[0, 1, 5]),
    ("ticklocust_fill", &[0, 1, 4, 5, 8]),
    ("ticklocust_reading", &[0, 1, 4, 5]),
    ("ticklocust_day", &[0, 1, 5, 6]),
];

type Plain = fn(&mut Tally, &mut Random);

/// Small tasks, which show a difference on a small call if they can.
const SMALL: [(&str, Plain); 8] = [
    ("faults of cells", faults::cells),
    ("faults of masks and charts", faults::masks_and_charts),
    ("named positions", positions::named_positions),
    ("all masks of level 0", masks::level_0),
    ("ages and limits", charts::ages_and_limits),
    ("readings", charts::readings),
    ("fills of full size", fills::full_size),
    ("days of full size", charts::full_size),
];

/// All tasks of one round. `programs` is the folder of the two programs, if they are compared.
pub fn tasks(programs: Option<&str>) -> Vec<Task> {
    let mut list = Vec::new();
    for (name, run) in SMALL {
        list.push(task(name.into(), run));
    }
    for octant in 0..8 {
        let name = format!("every cell of octant {octant}");
        list.push(task(name, move |t, r| places::every_cell(t, r, octant)));
    }
    for (name, run) in borders::TASKS {
        list.push(task(name.into(), run));
    }
    for level in 0..=7 {
        let name = format!("random masks of level {level}");
        list.push(task(name, move |t, r| masks::random_masks(t, r, level)));
        let name = format!("fills of level {level}");
        list.push(task(name, move |t, r| fills::fills(t, r, level)));
        let name = format!("days of level {level}");
        list.push(task(name, move |t, r| charts::random_days(t, r, level)));
    }
    for rings in [1, 4, 16, 64] {
        let name = format!("masks of full size, {rings} rings");
        list.push(task(name, move |t, r| masks::full_size(t, r, rings)));
    }
    for (name, run) in programs::TASKS {
        if let Some(folder) = programs.map(str::to_owned) {
            list.push(task((*name).into(), move |t, r| run(t, r, &folder)));
        }
    }
    for part in 0..4 {
        list.push(task(format!("random positions, part {part}"), positions::random_positions));
    }
    for part in 0..10 {
        list.push(task(format!("random cells, part {part}"), places::random_cells));
    }
    list
}
