//! Random machines made by hand, each with one call: sound ones that calls reach,
//! these with one field changed, sound ones that no call reaches, and raw ones. All of
//! them hold a task or none.

use crate::edges::{CHANGES, change};
use crate::holdable::{holdable, largest};
use crate::machine::{Job, Machine};
use crate::needs::{self, NEEDS};
use crate::probe::{Entry, HandMade, Probe};
use crate::random::Random;
use crate::script::{Call, carry_out};
use crate::scripts::{self, light, odd_task, to_offer};
use crate::tables;
use crate::tasks::{MOST_CORES, MOST_TASKS, Task};

/// The number of probes in a group.
pub const IN_A_GROUP: u64 = (REACHED + CHANGES + UNREACHED + SMALL + RAW) as u64;

const REACHED: usize = 8;
const UNREACHED: usize = 14;
const SMALL: usize = 10;
const RAW: usize = 6;

// Numbers at limits, and some that a cut to 8 or 16 bits would bring back.
const RAW_NUMBERS: [u32; 16] = [
    0,
    1,
    1,
    2,
    3,
    16,
    17,
    32,
    33,
    256 + 1,
    65_536 + 1,
    999_999,
    1_000_000,
    1_000_001,
    1 << 31,
    u32::MAX,
];

/// The group of probes with this index under this seed: a machine that calls reach
/// as it is and with every change, then machines that no calls reach.
pub fn group(seed: u64, index: u64) -> Vec<Probe> {
    let random = &mut Random::new(seed, index);
    let reached = reached(random);
    let mut probes = Vec::new();
    for _ in 0..REACHED {
        let machine = with_past(random, &reached);
        probes.push(with_call(random, machine, 0));
    }
    for which in 0..CHANGES {
        probes.push(changed(random, &reached, which));
    }
    for _ in 0..UNREACHED {
        let machine = unreached(random, &reached);
        probes.push(with_call(random, machine, 0));
    }
    for _ in 0..SMALL {
        let machine = small(random);
        probes.push(with_call(random, machine, 0));
    }
    for _ in 0..RAW {
        let machine = raw(random);
        probes.push(with_call(random, machine, 0));
    }
    probes
}

// One field changed, two times out of three of the machine that calls reach, else of
// a sound one that they do not reach.
fn changed(random: &mut Random, reached: &Machine, which: usize) -> Probe {
    let mut machine = match random.one_in(3) {
        true => unreached(random, reached),
        false => with_past(random, reached),
    };
    let number = change(random, &mut machine, which);
    with_call(random, machine, number)
}

// The machine after some of a script's calls, or one of 31 or 32 tasks.
fn reached(random: &mut Random) -> Machine {
    if random.one_in(6) {
        return wide(random);
    }
    loop {
        let script = scripts::script(random.bits(), random.bits());
        if let Ok(mut machine) = script.start() {
            let calls = script.calls.iter();
            let calls = calls.take_while(|call| !matches!(call, Call::Bad(_)));
            for call in calls.take(random.below(script.calls.len() + 1)) {
                carry_out(&mut machine, *call);
            }
            return machine;
        }
    }
}

// Releases of most tasks and a few slots. Light tasks on many cores are admitted.
fn wide(random: &mut Random) -> Machine {
    let tasks = random.pick(&[31, 32]);
    let table = match random.below(3) {
        0 => tables::of_tasks(random, tasks),
        _ => (0..tasks).map(|_| light(random)).collect(),
    };
    let cores = random.pick(&[1, 2, 8, 15, MOST_CORES]);
    let mut machine = Machine::start(&table, cores).expect("a table on 1 to 16 cores");
    let needs = random.pick(&NEEDS);
    for (number, task) in (1..).zip(&table) {
        if !random.one_in(4) {
            let need = needs::accepted(random, needs, task);
            carry_out(&mut machine, Call::Release(number, need));
        }
    }
    for _ in 0..random.below(6) {
        carry_out(&mut machine, Call::Slot(cores));
    }
    machine
}

// The entries past the count are of zeros, sound, or anything.
fn with_past(random: &mut Random, machine: &Machine) -> HandMade {
    let mut made = HandMade::of_machine(machine);
    fill_past(random, &mut made);
    hold_well(random, &mut made);
    made
}

// What calls left held, none, or a task that an offer would take.
fn hold_well(random: &mut Random, machine: &mut HandMade) {
    match random.below(5) {
        0 => {}
        1 | 2 => machine.offered = None,
        _ => machine.offered = holdable(random, machine),
    }
}

fn fill_past(random: &mut Random, machine: &mut HandMade) {
    let tasks = machine.tasks().expect("a sound machine");
    let past = &mut machine.entries[tasks..];
    match random.below(4) {
        0 => {}
        1 => {
            let table = tables::of_tasks(random, past.len());
            for (entry, task) in past.iter_mut().zip(table) {
                entry.task = task;
            }
            any_jobs(random, past);
        }
        2 => past.fill_with(|| raw_entry(random)),
        _ => past.fill_with(|| small_entry(random)),
    }
}

// Sound jobs on the same table or on another one, also such as no call leaves.
fn unreached(random: &mut Random, reached: &Machine) -> HandMade {
    let mut machine = HandMade::of_machine(reached);
    if random.one_in(2) {
        let tasks = random.pick(&[1, 2, 3, 5, 8, 20, 31, MOST_TASKS]);
        let table = tables::of_tasks(random, tasks);
        let cores = random.between(1, MOST_CORES);
        let fresh = Machine::start(&table, cores).expect("a table on 1 to 16 cores");
        machine = HandMade::of_machine(&fresh);
    }
    let tasks = machine.tasks().expect("a sound machine");
    any_jobs(random, &mut machine.entries[..tasks]);
    fill_past(random, &mut machine);
    hold_well(random, &mut machine);
    machine
}

// Any sound job and core for each task. Lefts and budgets near one number bring ties.
fn any_jobs(random: &mut Random, entries: &mut [Entry]) {
    let near = random.pick(&[1, 2, 3, 5, 1_000, 999_999]);
    let closed = random.pick(&[2, 4, 16]);
    for entry in entries.iter_mut() {
        entry.job = match random.one_in(closed) {
            true => closed_job(random, &entry.task),
            false => open_job(random, &entry.task, near),
        };
    }
    any_cores(random, entries);
}

// No two have the same core, and some have none, whether they are open or closed. The
// cores go up to any number, and so are often among 1 to k and often above k.
fn any_cores(random: &mut Random, entries: &mut [Entry]) {
    let most = random.pick(&[2, 3, 5, 9, MOST_CORES, MOST_CORES]);
    let without = random.pick(&[2, 4, 16]);
    let mut free: Vec<u32> = (1..=most).collect();
    let tasks = entries.len();
    let first = random.below(tasks.max(1));
    for place in 0..tasks {
        let core = &mut entries[(first + place) % tasks].job.core;
        *core = match free.is_empty() || random.one_in(without) {
            true => 0,
            false => free.swap_remove(random.below(free.len())),
        };
    }
}

fn closed_job(random: &mut Random, task: &Task) -> Job {
    let any = random.between(0, task.period);
    let gap = random.pick(&[0, 0, 1, task.period, any]);
    Job {
        gap,
        ..Job::default()
    }
}

// The gap that calls leave is left + (T − D); any from left to T is sound.
fn open_job(random: &mut Random, task: &Task, near: u32) -> Job {
    let (deadline, most) = (task.deadline, task.budget);
    let any = random.between(1, deadline);
    let left = random.pick(&[1, deadline, near.min(deadline), near.min(deadline), any]);
    let any = random.between(1, most);
    let budget = random.pick(&[1, most, near.min(most), left.min(most), any]);
    let reached = left + (task.period - deadline);
    let any = random.between(left, task.period);
    let next = (left + 1).min(task.period);
    let gap = random.pick(&[left, left, next, reached, task.period, any]);
    Job {
        open: true,
        left,
        budget,
        gap,
        core: 0,
    }
}

// One to three tasks of numbers up to 4: every clause is near.
fn small(random: &mut Random) -> HandMade {
    let mut machine = HandMade {
        count: random.between(1, 3),
        cores: random.between(1, 3),
        entries: [Entry::ZERO; MOST_TASKS],
        offered: None,
    };
    let tasks = machine.tasks().expect("at most 3 tasks");
    machine.entries[..tasks].fill_with(|| small_entry(random));
    if !random.one_in(4) {
        any_cores(random, &mut machine.entries[..tasks]);
    }
    fill_past(random, &mut machine);
    if random.one_in(3) {
        machine.offered = Some(small_entry(random).task);
    }
    machine
}

// A task in range, and a job of any small numbers. Most closed ones have no numbers,
// and half of all have no core.
fn small_entry(random: &mut Random) -> Entry {
    let period = random.between(1, 4);
    let deadline = random.between(1, period);
    let mut entry = Entry::fresh(Task::new(period, random.between(1, deadline), deadline));
    let job = &mut entry.job;
    job.open = !random.one_in(3);
    job.gap = random.between(0, period + 1);
    if job.open || random.one_in(8) {
        job.left = random.between(0, deadline + 1);
        job.budget = random.between(0, entry.task.budget + 1);
    }
    job.core = random.pick(&[0, 0, 0, 0, 1, 2, 16, 17]);
    entry
}

// Any count, any m and any numbers in all entries.
fn raw(random: &mut Random) -> HandMade {
    let any = random.between(2, 31);
    let mut machine = HandMade {
        count: random.pick(&[0, 1, any, 32, 33, 65_536 + 1, u32::MAX]),
        cores: random.pick(&[0, 1, 2, MOST_CORES, 17, 256 + 1, u32::MAX]),
        entries: [Entry::ZERO; MOST_TASKS],
        offered: None,
    };
    if random.one_in(2) {
        machine.offered = Some(raw_entry(random).task);
    }
    if random.one_in(2) {
        machine.entries.fill_with(|| raw_entry(random));
    } else {
        machine.entries.fill_with(|| small_entry(random));
    }
    machine
}

fn raw_entry(random: &mut Random) -> Entry {
    let mut number = || random.pick(&RAW_NUMBERS);
    let [period, budget, deadline] = [number(), number(), number()];
    let [left, owed, gap, core] = [number(), number(), number(), number()];
    let open = u32::from(random.one_in(2));
    Entry::of_line([period, budget, deadline, open, left, owed, gap, core])
}

// A call of any kind, often one that concerns the task that was changed.
fn with_call(random: &mut Random, machine: HandMade, changed: u32) -> Probe {
    let call = match random.below(5) {
        0 => release(random, &machine, changed),
        1 => Call::Finish(number(random, &machine, changed)),
        2 => Call::Slot(cores(random, machine.cores)),
        3 => Call::Commit,
        _ => Call::Offer(offer(random, &machine)),
    };
    Probe { machine, call }
}

// Once in three times of a task that is due or would be, if there is one. The need is
// near the C of the entry that the number names.
fn release(random: &mut Random, machine: &HandMade, changed: u32) -> Call {
    let any = number(random, machine, changed);
    let number = match random.one_in(3) {
        true => due(random, machine).unwrap_or(any),
        false => any,
    };
    let index = usize::try_from(number.wrapping_sub(1)).expect("a number of 32 bits");
    let entry = machine.entries.get(index).unwrap_or(&machine.entries[0]);
    Call::Release(number, needs::of_any_entry(random, &entry.task))
}

// The first entry past the count is no task, though it may look due.
fn due(random: &mut Random, machine: &HandMade) -> Option<u32> {
    let entries = machine.entries.iter().take(machine.tasks()? + 1);
    let due = (1..).zip(entries);
    let due = due.filter(|(_, entry)| !entry.job.open && entry.job.gap == 0);
    let numbers: Vec<u32> = due.map(|(number, _)| number).collect();
    (!numbers.is_empty()).then(|| random.pick(&numbers))
}

// A task of the table, or a number at or past its ends.
fn number(random: &mut Random, machine: &HandMade, changed: u32) -> u32 {
    let count = machine.count;
    let any = random.between(1, count.clamp(1, 32));
    let next = count.wrapping_add(1);
    match random.below(4) {
        0 => random.pick(&[0, 1, count, next, next, next, 33, 256 + any, u32::MAX]),
        1 | 2 if changed > 0 => changed,
        _ => any,
    }
}

// The k of a slot: from m to 16, or at the ends of that.
fn cores(random: &mut Random, m: u32) -> u32 {
    let (fewer, more) = (m.wrapping_sub(1), m.wrapping_add(1));
    let edge = random.pick(&[0, fewer, more, 16, 17, 256 + 16, u32::MAX]);
    random.pick(&[m, m, m, more, 16, edge, edge])
}

// The held task again, the largest budget that is taken or a slot more, or any task.
fn offer(random: &mut Random, machine: &HandMade) -> Task {
    let tasks = machine.tasks().unwrap_or(MOST_TASKS).max(1);
    let table = machine.entries[..tasks].iter().map(|entry| entry.task);
    let table: Vec<Task> = table.collect();
    match (random.below(8), machine.offered) {
        (0, _) => odd_task(random),
        (1, Some(task)) => task,
        (2, _) => {
            let task = light(random);
            let more = random.between(0, 1);
            largest(machine, task, more)
        }
        _ => to_offer(random, &table),
    }
}
