//! How often the budget still owed decides who runs (document 02, change 2): the
//! accepted slots of a script in which other tasks would have run if tasks equal
//! in urgency and left went by something else.

use std::cmp::Reverse;

use crate::machine::{Job, Machine, Slot};
use crate::script::{Answer, Call, Script, carry_out};
use crate::tasks::Task;

/// Slots that another rule would fill otherwise. The tasks in question are all
/// alike in urgency, since either rule ranks that first: urgent, or not.
#[derive(Clone, Copy, Debug, Default, PartialEq, Eq)]
pub struct Slots {
    pub urgent: u64,
    pub not_urgent: u64,
}

/// The slots of one script, by the rule that would fill them otherwise.
#[derive(Clone, Copy, Debug, Default, PartialEq, Eq)]
pub struct Ties {
    /// The lower number, whatever the budgets are.
    pub by_number: Slots,
    /// The larger C of the table, then the lower number.
    pub by_table: Slots,
}

/// The accepted slots of a script, each against the two other rules.
pub fn count(script: &Script) -> Ties {
    let mut ties = Ties::default();
    let Ok(mut machine) = script.start() else {
        return ties;
    };
    let calls = script.calls.iter();
    for call in calls.take_while(|call| !matches!(call, Call::Bad(_))) {
        // Where nobody has to wait, every rule runs the same tasks.
        let before = somebody_waits(&machine, *call).then(|| machine.clone());
        let answer = carry_out(&mut machine, *call);
        if let (Some(before), Answer::Ran(slot)) = (before, answer) {
            ties.slot(&before, slot);
        }
    }
    ties
}

// Whether the call is a slot of fewer cores than open tasks.
fn somebody_waits(machine: &Machine, call: Call) -> bool {
    let open = machine.jobs.iter().filter(|job| job.open).map(|_| 1);
    matches!(call, Call::Slot(cores) if cores < open.sum())
}

impl Ties {
    // The machine before an accepted slot, and the slot.
    fn slot(&mut self, before: &Machine, slot: Slot) {
        let by_number = picked(before, slot.runners, |_, _| 0);
        let by_table = picked(before, slot.runners, |task, _| task.budget);
        self.by_number.compare(before, slot.ran, by_number);
        self.by_table.compare(before, slot.ran, by_table);
    }
}

impl Slots {
    // The tasks that ran against those of the other rule.
    fn compare(&mut self, before: &Machine, ran: u32, other: u32) {
        let mut numbers = (0..).zip(&before.jobs);
        let in_question = numbers.find(|(index, _)| (ran ^ other) >> index & 1 == 1);
        match in_question {
            Some((_, job)) if job.urgent() => self.urgent += 1,
            Some(_) => self.not_urgent += 1,
            None => {}
        }
    }
}

// The first so many tasks, as the sum of 2 to the power (task number − 1), if of
// equal urgency and left the larger of these numbers went first.
fn picked(machine: &Machine, runners: u32, tie: fn(&Task, &Job) -> u32) -> u32 {
    let tasks = machine.table.iter().zip(&machine.jobs).enumerate();
    let mut open: Vec<_> = tasks.filter(|(_, (_, job))| job.open).collect();
    open.sort_by_key(|(index, (task, job))| {
        (!job.urgent(), job.left, Reverse(tie(task, job)), *index)
    });
    let runners = usize::try_from(runners).expect("at most 16 runners");
    open.iter().take(runners).map(|(index, _)| 1 << index).sum()
}
