//! Random logs that go by the rules (document 02, change 11): of the simulated machine
//! itself, and of a foreign dispatcher that breaks ties as it likes.

use crate::audit::{indexes, judge, number};
use crate::log::{Line, Log};
use crate::machine::Machine;
use crate::random::Random;
use crate::scripts::{any_budget, filled, heavy, light, short};
use crate::tables;
use crate::tasks::{MOST_CORES, MOST_TASKS, Task};

/// Who picks the runners.
#[derive(Clone, Copy, Debug, PartialEq, Eq)]
pub enum Dispatcher {
    /// Our machine, on k = m cores.
    Own,
    /// Urgency and left as in ours; any of those alike in both.
    Foreign,
}

// One in so many due tasks is released in a line, one in so many open ones finished.
#[derive(Clone, Copy)]
struct Rates {
    release: usize,
    finish: usize,
}

const RATES: [Rates; 5] = [
    rates(1, 1_000),
    rates(1, 40),
    rates(2, 20),
    rates(4, 8),
    rates(12, 100),
];

/// A log of a few lines, sometimes of some hundreds.
pub fn log(random: &mut Random, dispatcher: Dispatcher) -> Log {
    let (cores, table) = table(random);
    let lines = match random.below(16) {
        0 => random.below(3),
        1..=13 => 4 + random.below(40),
        _ => 60 + random.below(200),
    };
    play(random, dispatcher, cores, &table, lines)
}

/// So many lines on a table.
pub fn play(
    random: &mut Random,
    dispatcher: Dispatcher,
    cores: u32,
    table: &[Task],
    lines: usize,
) -> Log {
    let rates = random.pick(&RATES);
    let mut machine = Machine::start(table, cores).expect("a table on 1 to 16 cores");
    let lines = (0..lines).map(|_| next(random, &mut machine, dispatcher, rates));
    Log {
        cores,
        table: table.to_vec(),
        lines: lines.collect(),
    }
}

// The runners are picked on the machine after the line's releases and finishes.
fn next(random: &mut Random, machine: &mut Machine, dispatcher: Dispatcher, rates: Rates) -> Line {
    let mut line = Line::default();
    let mut after = machine.clone();
    for (index, task) in machine.table.iter().enumerate() {
        let due = !machine.jobs[index].open && machine.jobs[index].gap == 0;
        if due && random.one_in(rates.release) {
            line.released += 1 << index;
            let released = after.release(number(index), task.budget);
            released.expect("a task that is due");
        }
        if after.jobs[index].open && random.one_in(rates.finish) {
            line.finished += 1 << index;
            after.finish(number(index)).expect("an open task");
        }
    }
    line.ran = pick(random, &after, dispatcher);
    judge(machine, line).expect("a line by the rules");
    line
}

fn pick(random: &mut Random, machine: &Machine, dispatcher: Dispatcher) -> u32 {
    let runners = match dispatcher {
        Dispatcher::Own => machine.pick(machine.cores),
        Dispatcher::Foreign => {
            let jobs = &machine.jobs;
            let mut order: Vec<usize> = (0..jobs.len()).filter(|i| jobs[*i].open).collect();
            order.sort_by_cached_key(|index| {
                let job = &jobs[*index];
                (!job.urgent(), job.left, random.bits())
            });
            order.truncate(usize::try_from(machine.cores).expect("at most 16 cores"));
            order
        }
    };
    runners.iter().map(|index| 1 << index).sum()
}

/// A table and m: most of them near the edge of admission, where jobs compete, or with
/// many ties, and some far beyond it, where jobs are late.
pub fn table(random: &mut Random) -> (u32, Vec<Task>) {
    let cores = random.pick(&[1, 1, 2, 2, 2, 3, 3, 4, 6, MOST_CORES]);
    match random.below(16) {
        0 | 1 => any(random),
        2..=5 => (cores, filled(random, cores, short)),
        6..=8 => tied(random, cores),
        9..=11 => overloaded(random, cores),
        12 => equal(random, cores),
        13 => crowded(random),
        _ => few(random, cores),
    }
}

fn any(random: &mut Random) -> (u32, Vec<Task>) {
    let table = tables::valid(random);
    (random.between(1, MOST_CORES), table)
}

// Periods and deadlines of two tasks, and any budgets.
fn tied(random: &mut Random, cores: u32) -> (u32, Vec<Task>) {
    let shapes = [short(random), short(random)];
    let table = filled(random, cores, |random| any_budget(random, &shapes));
    let fewer = u32::from(cores > 1 && random.one_in(3));
    (cores - fewer, table)
}

fn overloaded(random: &mut Random, cores: u32) -> (u32, Vec<Task>) {
    let tasks = 2 + random.below(MOST_TASKS - 1);
    let table: Vec<Task> = (0..tasks).map(|_| heavy(random)).collect();
    let half = u32::try_from(tasks / 2).expect("at most 16");
    (cores.min(half), table)
}

// One task many times: all that is released at once is alike.
fn equal(random: &mut Random, cores: u32) -> (u32, Vec<Task>) {
    let choices = [Task::new(5, 5, 5), short(random), heavy(random)];
    let task = random.pick(&choices);
    (cores, vec![task; 2 + random.below(6)])
}

// Every bit of a value has a task, or all but one.
fn crowded(random: &mut Random) -> (u32, Vec<Task>) {
    let tasks = MOST_TASKS - random.below(2);
    let make = random.pick(&[light, short]);
    let table = (0..tasks).map(|_| make(random)).collect();
    (random.between(1, MOST_CORES), table)
}

fn few(random: &mut Random, cores: u32) -> (u32, Vec<Task>) {
    let tasks = 1 + random.below(5);
    (cores, (0..tasks).map(|_| short(random)).collect())
}

/// The tasks that are open when line `at` (from 0) runs, if the lines before it go by the
/// rules and its releases and finishes too.
pub fn open_at(log: &Log, at: usize) -> Option<u32> {
    let mut machine = Machine::start(&log.table, log.cores).ok()?;
    for line in &log.lines[..at] {
        judge(&mut machine, *line)?;
    }
    for index in indexes(log.lines[at].released) {
        let whole = machine.table.get(index)?.budget;
        machine.release(number(index), whole).ok()?;
    }
    for index in indexes(log.lines[at].finished) {
        machine.finish(number(index)).ok()?;
    }
    let open = machine.jobs.iter().enumerate().filter(|(_, job)| job.open);
    Some(open.map(|(index, _)| 1 << index).sum())
}

const fn rates(release: usize, finish: usize) -> Rates {
    Rates { release, finish }
}
