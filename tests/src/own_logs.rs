//! Scripts whose logs are our own machine's (document 02, change 11): releases of whole
//! budgets, slots of k = m, finishes, offers, refused calls of every kind among them, and no
//! accepted commit; and the log of what `replay` printed for such a script.

use crate::audit::number;
use crate::log::{Line, Log};
use crate::logs;
use crate::machine::Machine;
use crate::needs;
use crate::random::Random;
use crate::script::{Call, Script, carry_out};
use crate::scripts::{no_cores, no_task, odd_task, some_task, to_offer};
use crate::tasks::Task;
use crate::texts::{ORDERS, write};

// The most calls, so that a script stays short.
const MOST_CALLS: usize = 300;

/// The script with this index under this seed.
pub fn script(seed: u64, index: u64) -> Script {
    let mut random = Random::new(seed, index);
    let (cores, table) = logs::table(&mut random);
    let mut machine = Machine::start(&table, cores).expect("a table on 1 to 16 cores");
    let slots = random.pick(&[1, 3, 3, 8]);
    let mut calls = Vec::new();
    let most = random.pick(&[4, 60, 60, 60, 120, MOST_CALLS]);
    for _ in 0..random.below(most) {
        let call = next(&mut random, &machine, slots);
        carry_out(&mut machine, call);
        calls.push(call);
    }
    Script {
        cores,
        table: write(&table, random.pick(&ORDERS)),
        calls,
    }
}

// Where no task serves, a slot.
fn next(random: &mut Random, machine: &Machine, slots: usize) -> Call {
    let slot = Call::Slot(machine.cores);
    match random.below(16 + 4 * slots) {
        0..=9 => release(random, machine).unwrap_or(slot),
        10 => some_task(random, machine, |job| job.open).map_or(slot, Call::Finish),
        11 => some_task(random, machine, |job| !job.open).map_or(slot, Call::Finish),
        12 => refused_release(random, machine),
        13 => Call::Slot(no_cores(random, machine.cores)),
        14 => Call::Offer(to_offer(random, &machine.table)),
        15 => odd_call(random, machine),
        _ => slot,
    }
}

fn whole(machine: &Machine, number: u32) -> Call {
    Call::Release(number, task(machine, number).budget)
}

fn task(machine: &Machine, number: u32) -> &Task {
    &machine.table[usize::try_from(number - 1).expect("at most 32 tasks")]
}

fn release(random: &mut Random, machine: &Machine) -> Option<Call> {
    let due = some_task(random, machine, |job| !job.open && job.gap == 0)?;
    Some(whole(machine, due))
}

// Too soon, with a need that is refused, or of no task.
fn refused_release(random: &mut Random, machine: &Machine) -> Call {
    let tasks = number(machine.table.len() - 1);
    match random.below(3) {
        0 => {
            let soon = some_task(random, machine, |job| job.gap > 0);
            soon.map_or(Call::Finish(0), |soon| whole(machine, soon))
        }
        1 => {
            let any = random.between(1, tasks);
            Call::Release(any, needs::refused(random, task(machine, any)))
        }
        _ => Call::Release(no_task(random, tasks), 1),
    }
}

// A commit only while none is held: it is refused.
fn odd_call(random: &mut Random, machine: &Machine) -> Call {
    match machine.offered {
        None => Call::Commit,
        Some(_) => Call::Offer(odd_task(random)),
    }
}

/// The log of a script and of what was printed for its calls: for each accepted slot the
/// accepted releases and finishes since the slot before, and its runners. What follows the
/// last slot and what was refused is left out.
pub fn log_of(script: &Script, table: &[Task], printed: &str) -> Log {
    assert_eq!(
        printed.lines().count(),
        script.calls.len(),
        "an answer for each call"
    );
    let mut lines = Vec::new();
    let mut line = Line::default();
    for (call, answer) in script.calls.iter().zip(printed.lines()) {
        if answer.starts_with("REFUSED ") {
            continue;
        }
        match call {
            Call::Release(number, _) => line.released |= 1 << (number - 1),
            Call::Finish(number) => line.finished |= 1 << (number - 1),
            Call::Slot(_) => {
                line.ran = first_number(answer);
                lines.push(line);
                line = Line::default();
            }
            Call::Offer(_) => {}
            Call::Commit | Call::Bad(_) => panic!("{call} was accepted"),
        }
    }
    Log {
        cores: script.cores,
        table: table.to_vec(),
        lines,
    }
}

// The runners of a slot's answer.
fn first_number(answer: &str) -> u32 {
    let first = answer.split(' ').next();
    let number = first.and_then(|first| first.parse().ok());
    number.unwrap_or_else(|| panic!("no slot's answer: {answer}"))
}
