//! One field of a sound machine changed to a value at the edge of a clause of
//! number 0 (document 01, "Why a call is not carried out", with changes 3, 4 and 10 of
//! document 02), on either side of it.

use crate::holdable::{holdable, largest};
use crate::probe::{Entry, HandMade};
use crate::random::Random;
use crate::scripts::light;
use crate::tasks::{LONGEST_PERIOD, MOST_CORES, MOST_TASKS, Task};

use Field::{Budget, Core, Deadline, Gap, Left, Owed, Period};
use Sharers::{Ends, Neighbours, OnePastTheCount, Three, Two};
use Whose::{Any, Closed, Open};

/// Every change there is: the fields of a task, OPEN, the count, m, a core recorded
/// twice, the held task, and an entry past the count.
pub const CHANGES: usize = EDGES.len()
    + FLIPS.len()
    + COUNTS.len()
    + CORES.len()
    + SHARED.len()
    + HELD.len()
    + FULL
    + PAST;

// The tasks of which one gets the change.
#[derive(Clone, Copy)]
enum Whose {
    Any,
    Open,
    Closed,
}

#[derive(Clone, Copy)]
enum Field {
    Period,
    Budget,
    Deadline,
    Left,
    Owed,
    Gap,
    Core,
}

// Those for which one core is recorded.
#[derive(Clone, Copy)]
enum Sharers {
    Two,
    Neighbours,
    Ends,
    Three,
    OnePastTheCount,
}

// A field of a task's entry and its new value, from the entry as it was.
type Edge = (Whose, Field, fn(&Entry) -> u32);

const EDGES: [Edge; 59] = [
    // A gap is at most T.
    (Open, Gap, |entry| entry.task.period),
    (Open, Gap, |entry| entry.task.period + 1),
    (Closed, Gap, |entry| entry.task.period),
    (Closed, Gap, |entry| entry.task.period + 1),
    (Any, Gap, |_| u32::MAX),
    // An open task's gap is at least its left, and compared with nothing else.
    (Open, Gap, |entry| entry.job.left - 1),
    (Open, Gap, |entry| entry.job.left),
    (Open, Gap, |entry| entry.job.left + 1),
    (Open, Gap, |_| 0),
    (Open, Gap, |_| 1),
    (Open, Gap, |entry| entry.task.deadline),
    (Open, Gap, |entry| entry.task.deadline - 1),
    (Open, Gap, |entry| entry.job.budget),
    (Open, Gap, |entry| entry.task.budget),
    (Open, Left, |entry| entry.job.gap),
    (Open, Left, |entry| entry.job.gap + 1),
    (Closed, Gap, |_| 0),
    (Closed, Gap, |_| 1),
    (Closed, Gap, |entry| entry.task.deadline - 1),
    // An open task's left is 1 to D.
    (Open, Left, |_| 0),
    (Open, Left, |_| 1),
    (Open, Left, |entry| entry.task.deadline),
    (Open, Left, |entry| entry.task.deadline + 1),
    (Open, Left, |_| u32::MAX),
    // Its budget is 1 to C.
    (Open, Owed, |_| 0),
    (Open, Owed, |_| 1),
    (Open, Owed, |entry| entry.task.budget),
    (Open, Owed, |entry| entry.task.budget + 1),
    (Open, Owed, |_| u32::MAX),
    // A closed task has neither.
    (Closed, Left, |_| 1),
    (Closed, Left, |entry| entry.task.deadline),
    (Closed, Left, |_| u32::MAX),
    (Closed, Owed, |_| 1),
    (Closed, Owed, |entry| entry.task.budget),
    (Closed, Owed, |_| u32::MAX),
    // 1 ≤ C ≤ D ≤ T ≤ 1,000,000, and the job's numbers within them.
    (Any, Budget, |_| 0),
    (Any, Budget, |entry| entry.task.deadline),
    (Any, Budget, |entry| entry.task.deadline + 1),
    (Any, Budget, |_| u32::MAX),
    (Open, Budget, |entry| entry.job.budget - 1),
    (Any, Deadline, |entry| entry.task.budget - 1),
    (Any, Deadline, |entry| entry.task.period),
    (Any, Deadline, |entry| entry.task.period + 1),
    (Any, Deadline, |_| u32::MAX),
    (Open, Deadline, |entry| entry.job.left - 1),
    (Any, Period, |entry| entry.task.deadline - 1),
    (Any, Period, |_| LONGEST_PERIOD),
    (Any, Period, |_| LONGEST_PERIOD + 1),
    (Any, Period, |_| u32::MAX),
    (Any, Period, |entry| entry.job.gap),
    (Any, Period, |entry| entry.job.gap.wrapping_sub(1)),
    // A recorded core is at most 16. A cut to fewer bits would bring some back.
    (Any, Core, |_| 0),
    (Open, Core, |_| MOST_CORES),
    (Closed, Core, |_| MOST_CORES),
    (Open, Core, |_| MOST_CORES + 1),
    (Closed, Core, |_| MOST_CORES + 1),
    (Any, Core, |_| 32),
    (Any, Core, |_| 256 + 1),
    (Any, Core, |_| u32::MAX),
];

// A job that is closed with its numbers, and one that is opened without any.
const FLIPS: [Whose; 2] = [Open, Closed];

const COUNTS: [fn(u32) -> u32; 7] = [
    |_| 0,
    |_| 1,
    |_| 32,
    |_| 33,
    |count| count - 1,
    |count| count + 1,
    |_| u32::MAX,
];

const CORES: [u32; 5] = [0, 1, MOST_CORES, MOST_CORES + 1, u32::MAX];

// One core is recorded for no two tasks of the table.
const SHARED: [Sharers; 6] = [Two, Two, Neighbours, Ends, Three, OnePastTheCount];

// What is held, from a task that the machine could hold.
type Held = fn(&HandMade, Task) -> Task;

const HELD: [Held; 18] = [
    |_, task| task,
    // 1 ≤ C ≤ D ≤ T ≤ 1,000,000.
    |_, task| Task { budget: 0, ..task },
    |_, task| Task::new(LONGEST_PERIOD, 0, task.deadline),
    |_, task| Task::new(task.period, task.deadline, task.deadline),
    |_, task| Task::new(task.period, task.deadline + 1, task.deadline),
    |_, task| Task::new(task.period, u32::MAX, task.deadline),
    |_, task| Task::new(task.period, task.budget, task.budget - 1),
    |_, task| Task::new(task.period, task.budget, task.period),
    |_, task| Task::new(task.period, task.budget, task.period + 1),
    |_, task| Task::new(task.period, task.budget, u32::MAX),
    |_, task| Task::new(task.deadline - 1, task.budget, task.deadline),
    |_, task| Task::new(LONGEST_PERIOD, task.budget, task.deadline),
    |_, task| Task::new(LONGEST_PERIOD + 1, task.budget, task.deadline),
    |_, task| Task::new(u32::MAX, task.budget, task.deadline),
    // The largest budget that is admitted, and one slot more.
    |machine, task| largest(machine, task, 0),
    |machine, task| largest(machine, task, 1),
    |machine, task| largest(machine, Task::new(9, 1, 8), task.budget % 2),
    // A task of the table.
    |machine, _| machine.entries[0].task,
];

// Changes of the table to 32 tasks, beside which no task is held.
const FULL: usize = 2;

// Changes past the count, each to any entry there.
const PAST: usize = 3;

/// Makes one of the changes to a sound machine. Gives the number of the task that
/// was changed, or 0.
pub fn change(random: &mut Random, machine: &mut HandMade, which: usize) -> u32 {
    let kinds = [
        EDGES.len(),
        FLIPS.len(),
        COUNTS.len(),
        CORES.len(),
        SHARED.len(),
        HELD.len(),
        FULL,
    ];
    let mut which = which;
    for (kind, kinds) in kinds.into_iter().enumerate() {
        if which < kinds {
            return change_of_kind(random, machine, kind, which);
        }
        which -= kinds;
    }
    change_past(random, machine)
}

fn change_of_kind(random: &mut Random, machine: &mut HandMade, kind: usize, which: usize) -> u32 {
    match kind {
        0 => change_field(random, machine, EDGES[which]),
        1 => flip(random, machine, FLIPS[which]),
        2 => {
            machine.count = COUNTS[which](machine.count);
            0
        }
        3 => {
            machine.cores = CORES[which];
            0
        }
        4 => share(random, machine, SHARED[which]),
        5 => hold(random, machine, HELD[which]),
        _ => fill(random, machine),
    }
}

fn hold(random: &mut Random, machine: &mut HandMade, held: Held) -> u32 {
    let task = holdable(random, machine).unwrap_or_else(|| light(random));
    machine.offered = Some(held(machine, task));
    0
}

// Fresh tasks up to the 32nd, and a held one that fits.
fn fill(random: &mut Random, machine: &mut HandMade) -> u32 {
    let task = holdable(random, machine).unwrap_or_else(|| light(random));
    let tasks = machine.tasks().expect("a sound machine");
    machine.entries[tasks..].fill_with(|| Entry::fresh(light(random)));
    machine.count = 32;
    let own = random.pick(&machine.entries).task;
    machine.offered = Some(random.pick(&[task, own]));
    0
}

fn change_field(random: &mut Random, machine: &mut HandMade, edge: Edge) -> u32 {
    let (whose, field, value) = edge;
    let index = some_task(random, machine, whose);
    let entry = &mut machine.entries[index];
    let value = value(entry);
    *entry.field(field) = value;
    number(index)
}

fn flip(random: &mut Random, machine: &mut HandMade, whose: Whose) -> u32 {
    let index = some_task(random, machine, whose);
    let open = &mut machine.entries[index].job.open;
    *open = !*open;
    number(index)
}

// Records one core for these entries and for no other task. In a table of one task
// it is recorded for that one alone.
fn share(random: &mut Random, machine: &mut HandMade, sharers: Sharers) -> u32 {
    let sharing = sharing(random, machine, sharers);
    let held = sharing.iter().map(|index| machine.entries[*index].job.core);
    let held = held.filter(|core| *core <= MOST_CORES).max().unwrap_or(0);
    let core = match held {
        0 => random.between(1, MOST_CORES),
        held => held,
    };
    let tasks = machine.tasks().expect("a sound machine");
    for entry in &mut machine.entries[..tasks] {
        if entry.job.core == core {
            entry.job.core = 0;
        }
    }
    for index in &sharing {
        machine.entries[*index].job.core = core;
    }
    sharing.first().map_or(0, |index| number(*index))
}

// The places of different entries, of tasks but for one past the count.
fn sharing(random: &mut Random, machine: &HandMade, sharers: Sharers) -> Vec<usize> {
    let tasks = machine.tasks().expect("a sound machine");
    let one = random.below(tasks);
    let other = (one + 1 + random.below(tasks.max(2) - 1)) % tasks;
    let mut sharing = match sharers {
        Two => vec![one, other],
        Neighbours => vec![one, (one + 1) % tasks],
        Ends => vec![0, tasks - 1],
        Three => vec![one, other, random.below(tasks)],
        OnePastTheCount if tasks < MOST_TASKS => {
            vec![one, tasks + random.below(MOST_TASKS - tasks)]
        }
        OnePastTheCount => Vec::new(),
    };
    sharing.dedup();
    sharing
}

// No part of the machine: the change may change nothing but itself.
fn change_past(random: &mut Random, machine: &mut HandMade) -> u32 {
    let tasks = machine.tasks().expect("a sound machine");
    if tasks < MOST_TASKS {
        let index = tasks + random.below(MOST_TASKS - tasks);
        let field = random.pick(&[Period, Budget, Deadline, Left, Owed, Gap, Core]);
        let value = random.pick(&[0, 1, 17, LONGEST_PERIOD, LONGEST_PERIOD + 1, u32::MAX]);
        let entry = &mut machine.entries[index];
        *entry.field(field) = value;
        entry.job.open ^= random.one_in(2);
    }
    0
}

// A task of this sort. Where there is none, any task is opened as by a release, or
// closed as by a finish.
fn some_task(random: &mut Random, machine: &mut HandMade, whose: Whose) -> usize {
    let tasks = machine.tasks().expect("a sound machine");
    let fits = |open: bool| match whose {
        Any => true,
        Open => open,
        Closed => !open,
    };
    let held = 0..tasks;
    let found: Vec<usize> = held
        .filter(|index| fits(machine.entries[*index].job.open))
        .collect();
    if !found.is_empty() {
        return random.pick(&found);
    }
    let index = random.below(tasks);
    let entry = &mut machine.entries[index];
    match whose {
        Open => entry.release(),
        Closed | Any => entry.finish(),
    }
    index
}

fn number(index: usize) -> u32 {
    u32::try_from(index + 1).expect("at most 32 tasks")
}

impl Entry {
    fn field(&mut self, field: Field) -> &mut u32 {
        match field {
            Period => &mut self.task.period,
            Budget => &mut self.task.budget,
            Deadline => &mut self.task.deadline,
            Left => &mut self.job.left,
            Owed => &mut self.job.budget,
            Gap => &mut self.job.gap,
            Core => &mut self.job.core,
        }
    }

    fn release(&mut self) {
        let task = self.task;
        self.job.open = true;
        (self.job.left, self.job.budget) = (task.deadline, task.budget);
        self.job.gap = task.period;
    }

    fn finish(&mut self) {
        self.job.open = false;
        (self.job.left, self.job.budget) = (0, 0);
    }
}
