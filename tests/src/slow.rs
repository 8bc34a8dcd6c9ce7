//! Random tables whose slacks change for many rounds, about 64 of them or more
//! (document 02, change 6): two tasks, each of which gains a slot of slack when the
//! other one has, and sometimes tasks beside them.

use crate::found::FOUND;
use crate::random::Random;
use crate::tasks::{LONGEST_PERIOD, Task};

/// A table of two to six tasks, in any order.
pub fn table(random: &mut Random) -> Vec<Task> {
    let length = match random.below(4) {
        0 => random.between(1, 60),
        1 => random.between(60, 100),
        2 => random.between(27, 36),
        _ => random.between(1, LONGEST_PERIOD / 5),
    };
    let mut table = pair(length).to_vec();
    for _ in 0..random.pick(&[0, 0, 1, 2, 4]) {
        let place = random.below(table.len() + 1);
        let task = beside(random, length);
        table.insert(place, task);
    }
    for _ in 0..random.below(4) {
        let place = random.below(table.len());
        table[place] = moved(random, table[place]);
    }
    let first = random.below(table.len());
    table.rotate_left(first);
    table
}

/// On 1 core 2·length + 3 rounds, were there no limit: in each but the last one task
/// gains a slot.
pub fn pair(length: u32) -> [Task; 2] {
    [
        Task::new(3 * length + 2, length, 2 * length + 1),
        Task::new(4 * length + 2, length + 1, 4 * length + 2),
    ]
}

// A long period: without spare it counts always, with little it may stop to.
fn beside(random: &mut Random, length: u32) -> Task {
    let period = 5 * length;
    let budget = random.between(1, length);
    let most = random.pick(&[budget, 2 * length, period]);
    let deadline = random.pick(&[budget, most]);
    Task::new(period, budget, deadline)
}

// One of the numbers up or down by a slot, if the task still fits.
fn moved(random: &mut Random, task: Task) -> Task {
    let mut other = task;
    let number = match random.below(3) {
        0 => &mut other.period,
        1 => &mut other.budget,
        _ => &mut other.deadline,
    };
    *number = *number - 1 + random.pick(&[0, 2]);
    if other.fits() { other } else { task }
}

/// One of the tables that a cut after 64 rounds decides, or nearly so: all its numbers
/// times one factor, and then a few of them up or down by a slot.
pub fn near_cut(random: &mut Random) -> Vec<Task> {
    let cut = FOUND.iter().filter(|found| found.rounds >= 63);
    let tables: Vec<&[Task]> = cut.map(|found| found.table).collect();
    let any = random.between(1, LONGEST_PERIOD / 200);
    let factor = random.pick(&[1, 1, 1, 2, 3, any]);
    let times = |task: &Task| {
        let Task {
            period,
            budget,
            deadline,
        } = *task;
        Task::new(factor * period, factor * budget, factor * deadline)
    };
    let mut table: Vec<Task> = random.pick(&tables).iter().map(times).collect();
    for _ in 0..random.below(3) {
        let place = random.below(table.len());
        table[place] = moved(random, table[place]);
    }
    let first = random.below(table.len());
    table.rotate_left(first);
    table
}
