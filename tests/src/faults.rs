//! Number 0 clause by clause: everything that makes a machine made by hand unsound
//! (document 01, "Why a call is not carried out", with changes 3, 4 and 10 of document
//! 02), and by how much. A second statement beside the simulated machine's own.

use crate::probe::{Entry, HandMade};
use crate::tasks::{LONGEST_PERIOD, MOST_CORES, MOST_TASKS, Task};
use crate::wrong;

/// What can be wrong with the count, with m and with the cores of two tasks.
pub const WHOLE: [&str; 5] = [
    "count 0",
    "count above 32",
    "m 0",
    "m above 16",
    "one core twice",
];

/// What can be wrong with one task of the table.
pub const OF_A_TASK: [&str; 13] = [
    "C 0",
    "C above D",
    "D above T",
    "T above 1,000,000",
    "gap above T",
    "closed with left",
    "closed with budget",
    "open with left 0",
    "open with left above D",
    "open with budget 0",
    "open with budget above C",
    "open with gap below left",
    "core above 16",
];

/// What can be wrong with the held task: four clauses of number 5, then 12 and 13.
pub const OF_THE_OFFER: [&str; 6] = [
    "held C 0",
    "held C above D",
    "held D above T",
    "held T above 1,000,000",
    HELD_12,
    HELD_13,
];

pub const HELD_12: &str = "held beside 32 tasks";
pub const HELD_13: &str = "held and not admitted";

/// One of these, how far the number is from its limit, and the task's number, or 0
/// for the count, m, one core twice and the held task.
#[derive(Clone, Copy, Debug, PartialEq, Eq)]
pub struct Fault {
    pub clause: &'static str,
    pub beyond: u32,
    pub task: u32,
}

/// Every fault of a machine; a sound one has none. A count above 32 takes in all
/// the entries that there are.
pub fn faults(machine: &HandMade) -> Vec<Fault> {
    let mut faults = list(0, &WHOLE, &of_the_whole(machine));
    let tasks = machine.tasks().unwrap_or(MOST_TASKS);
    for (task, entry) in (1..).zip(&machine.entries[..tasks]) {
        faults.extend(list(task, &OF_A_TASK, &of_a_task(entry)));
    }
    if let Some(task) = machine.offered {
        faults.extend(list(0, &OF_THE_OFFER, &of_the_offer(machine, &task)));
    }
    faults
}

// The clauses that fail, from how far each number is beyond its limit.
fn list(task: u32, clauses: &[&'static str], beyond: &[u32]) -> Vec<Fault> {
    let clauses = clauses.iter().zip(beyond);
    let failing = clauses.filter(|(_, beyond)| **beyond > 0);
    let fault = |(clause, beyond): (&&'static str, &u32)| Fault {
        clause,
        beyond: *beyond,
        task,
    };
    failing.map(fault).collect()
}

// How far the count and m are beyond their limits, 0 where they are not, and how
// many pairs of tasks have the same core.
fn of_the_whole(machine: &HandMade) -> [u32; 5] {
    let most_tasks = u32::try_from(MOST_TASKS).expect("a count of 32 bits");
    [
        below(machine.count, 1),
        above(machine.count, most_tasks),
        below(machine.cores, 1),
        above(machine.cores, MOST_CORES),
        pairs_of_one_core(machine),
    ]
}

// Every task against those before it. Two tasks without a core are no such pair.
fn pairs_of_one_core(machine: &HandMade) -> u32 {
    let tasks = machine.tasks().unwrap_or(MOST_TASKS);
    let cores: Vec<u32> = machine.entries.iter().map(|entry| entry.job.core).collect();
    let mut pairs = 0;
    for later in 0..tasks {
        for earlier in 0..later {
            let same = cores[earlier] == cores[later] && cores[later] > 0;
            pairs += u32::from(same);
        }
    }
    pairs
}

// The same of a task's three numbers.
fn of_numbers(task: &Task) -> [u32; 4] {
    [
        below(task.budget, 1),
        above(task.budget, task.deadline),
        above(task.deadline, task.period),
        above(task.period, LONGEST_PERIOD),
    ]
}

// The same of the held task. Whether it is admitted is a question only where the table
// with it can be judged.
fn of_the_offer(machine: &HandMade, task: &Task) -> [u32; 6] {
    let [no_budget, budget, deadline, period] = of_numbers(task);
    let full = machine.tasks() == Some(MOST_TASKS);
    let refused = is_refused(machine, task);
    let beyond = [full, refused].map(u32::from);
    [no_budget, budget, deadline, period, beyond[0], beyond[1]]
}

// By the slack test, as it is written beside its wrong versions.
fn is_refused(machine: &HandMade, task: &Task) -> bool {
    let table = machine.entries.iter().map(|entry| entry.task);
    let mut longer: Vec<Task> = table.take(machine.tasks().unwrap_or(MOST_TASKS)).collect();
    longer.push(*task);
    let fits = longer.iter().all(|task| of_numbers(task) == [0; 4]);
    let judged = fits
        && (2..=MOST_TASKS).contains(&longer.len())
        && (1..=MOST_CORES).contains(&machine.cores);
    judged && !wrong::RIGHT.judge(&longer, machine.cores).1
}

// The same of a task's numbers and its job's, which is open or closed.
fn of_a_task(entry: &Entry) -> [u32; 13] {
    let (task, job) = (&entry.task, &entry.job);
    let (open, closed) = (u32::from(job.open), u32::from(!job.open));
    let [no_budget, budget, deadline, period] = of_numbers(task);
    [
        no_budget,
        budget,
        deadline,
        period,
        above(job.gap, task.period),
        closed * above(job.left, 0),
        closed * above(job.budget, 0),
        open * below(job.left, 1),
        open * above(job.left, task.deadline),
        open * below(job.budget, 1),
        open * above(job.budget, task.budget),
        open * below(job.gap, job.left),
        above(job.core, MOST_CORES),
    ]
}

fn above(number: u32, limit: u32) -> u32 {
    number.saturating_sub(limit)
}

fn below(number: u32, limit: u32) -> u32 {
    limit.saturating_sub(number)
}
