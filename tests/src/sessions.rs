//! Literal sessions: scripts in which every task is released once with its whole
//! budget, and the check of what is printed by the simulated machine and by the program.

use crate::program;
use crate::script::{Call, Script, lines};
use crate::tasks::Task;
use crate::texts::{ORDERS, write};

/// A script of these calls on a table.
pub fn script(cores: u32, table: &[Task], calls: Vec<Call>) -> Script {
    Script {
        cores,
        table: write(table, ORDERS[0]),
        calls,
    }
}

/// Every task released once, then so many slots on m cores.
pub fn released_at_once(cores: u32, table: &[Task], slots: usize) -> Script {
    released_then(cores, table, &vec![cores; slots])
}

/// Every task released once with its whole budget, then a slot for each k.
pub fn released_then(cores: u32, table: &[Task], slots: &[u32]) -> Script {
    let numbers = (1..).zip(table);
    let whole = numbers.map(|(number, task)| Call::Release(number, task.budget));
    let mut calls: Vec<Call> = whole.collect();
    calls.extend(slots.iter().map(|k| Call::Slot(*k)));
    script(cores, table, calls)
}

/// The same literal output by the simulated machine and by the program.
pub fn check(script: &Script, expected: &str) {
    assert_eq!(lines(&script.play()), expected, "the simulated machine");
    let printed = String::from_utf8(program::replay_output(&script.text()));
    assert_eq!(printed.as_deref(), Ok(expected), "replay");
}
