//! Tasks that a machine made by hand could hold (document 02, change 10): those that an
//! offer would take, and the largest budget with which it would.

use crate::probe::HandMade;
use crate::random::Random;
use crate::scripts::to_offer;
use crate::slack;
use crate::tasks::{LONGEST_PERIOD, MOST_TASKS, Task};

// How many tasks are tried before the lightest one.
const TRIES: usize = 3;

/// A task that a machine which is sound otherwise could hold, if a few tries find one.
pub fn holdable(random: &mut Random, machine: &HandMade) -> Option<Task> {
    let table = table(machine);
    if table.len() >= MOST_TASKS || table.is_empty() {
        return None;
    }
    let mut tries: Vec<Task> = (0..TRIES).map(|_| to_offer(random, &table)).collect();
    tries.push(Task::new(LONGEST_PERIOD, 1, LONGEST_PERIOD));
    tries.into_iter().find(|task| takes(machine, *task))
}

/// The task with the largest budget that an offer would take, or so many slots more.
pub fn largest(machine: &HandMade, task: Task, more: u32) -> Task {
    let with = |budget: u32| Task { budget, ..task };
    // The first is taken or 0, the second is not.
    let (mut taken, mut refused) = (0, task.deadline + 1);
    while taken + 1 < refused {
        let middle = taken.midpoint(refused);
        match takes(machine, with(middle)) {
            true => taken = middle,
            false => refused = middle,
        }
    }
    with(taken.max(1) + more)
}

// Whether the table with the task is admitted.
fn takes(machine: &HandMade, task: Task) -> bool {
    let mut longer = table(machine);
    longer.push(task);
    slack::admits(&longer, machine.cores)
}

fn table(machine: &HandMade) -> Vec<Task> {
    let tasks = machine.tasks().unwrap_or(MOST_TASKS);
    let entries = machine.entries[..tasks].iter();
    entries.map(|entry| entry.task).collect()
}
