//! Literal machines made by hand, an entry written as its line, and the check of what
//! is printed for one call by the simulated machine and by the program.

use crate::probe::{Entry, HandMade, Probe, output};
use crate::program;
use crate::script::Call;
use crate::tasks::Task;

/// T C D, open, left, budget still owed, gap, core.
pub type Line = [u32; 8];

/// The first entries of a machine that holds no task; the others are 0.
pub fn machine(count: u32, cores: u32, lines: &[Line]) -> HandMade {
    let mut entries = [Entry::ZERO; 32];
    for (entry, line) in entries.iter_mut().zip(lines) {
        *entry = Entry::of_line(*line);
    }
    HandMade {
        count,
        cores,
        entries,
        offered: None,
    }
}

/// The machine holding this task, T, C and D.
pub fn holding(mut machine: HandMade, task: [u32; 3]) -> HandMade {
    let [period, budget, deadline] = task;
    machine.offered = Some(Task::new(period, budget, deadline));
    machine
}

/// The same literal answer and machine after the call by both.
pub fn check(before: &HandMade, call: Call, answer: &str, after: &HandMade) {
    let probe = Probe {
        machine: before.clone(),
        call,
    };
    let expected = format!("{answer}\n{after}");
    let (answer, after) = probe.play();
    let simulated = output(answer, &after);
    assert_eq!(simulated, expected, "the simulated machine, {call}");
    let printed = program::probe_output(probe.text().as_bytes());
    assert_eq!(String::from_utf8_lossy(&printed), expected, "probe, {call}");
}

/// A call of each kind, a release of need 0 and an offer of budget 0, on an unsound
/// machine, which stays as it was.
pub fn check_unsound(machine: &HandMade) {
    for call in [
        Call::Release(1, 1),
        Call::Release(1, 0),
        Call::Finish(1),
        Call::Slot(1),
        Call::Offer(Task::new(9, 1, 9)),
        Call::Offer(Task::new(9, 0, 9)),
        Call::Commit,
    ] {
        check(machine, call, "REFUSED 0", machine);
    }
}
