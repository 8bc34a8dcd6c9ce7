//! What the calls of a script should meet about needs (document 02, change 5):
//! releases by their e and their answer, jobs that end after fewer runs than C, and
//! slots in which the whole C would make other tasks urgent or let others run.

use std::cmp::Reverse;

use crate::machine::{Job, Machine, Slot};
use crate::script::{Answer, Call, Script, carry_out};
use crate::tasks::{MOST_TASKS, Task};

// One release: what it names, and the task as it was before.
struct Release {
    need: u32,
    task: Task,
    job: Job,
    answer: Answer,
    // The task's record of releases before this one.
    past: Past,
}

// What is remembered of a task besides its job.
#[derive(Clone, Copy, Default)]
struct Past {
    // e of the last accepted release, and C less that.
    need: Option<u32>,
    spared: u32,
    // Accepted slots since then.
    slots: u32,
    // Accepted slots since a 15 while it was due, if it was not released since.
    refused: Option<u32>,
    // Added by a commit.
    is_added: bool,
}

type Event<T> = (&'static str, fn(&T) -> bool);

const RELEASES: [Event<Release>; 19] = [
    ("a release with e = C", |call| {
        call.done() && call.need == call.task.budget
    }),
    ("a release with e below C", Release::is_short),
    ("a release with e = 1 below C", |call| {
        call.is_short() && call.need == 1
    }),
    ("a release with e = C − 1 above 1", |call| {
        call.is_short() && call.need > 1 && call.need == call.task.budget - 1
    }),
    ("a release that the whole C would make urgent", |call| {
        call.is_short() && call.task.budget == call.task.deadline
    }),
    ("a release with a larger e than the task's last", |call| {
        call.done() && call.past.need.is_some_and(|last| last < call.need)
    }),
    ("a release with a smaller e than the task's last", |call| {
        call.done() && call.past.need.is_some_and(|last| last > call.need)
    }),
    (
        "a release as soon as the gap of a job of e below C ended",
        |call| call.done() && call.past.spared > 0 && call.past.slots == call.task.period,
    ),
    ("a release of an added task with e below C", |call| {
        call.is_short() && call.past.is_added
    }),
    (
        "a release after one of the due task was refused by 15",
        |call| {
            call.done()
                && call
                    .past
                    .refused
                    .is_some_and(|slots| slots < call.task.period)
        },
    ),
    ("15 for e = 0 of a due task", |call| {
        call.refused(15) && call.need == 0 && call.job.gap == 0
    }),
    ("15 for e = C + 1 of a due task", |call| {
        call.refused(15) && call.need == call.task.budget + 1 && call.job.gap == 0
    }),
    ("15 for e above C + 1, at most D", |call| {
        let within = call.task.budget + 2..=call.task.deadline;
        call.refused(15) && within.contains(&call.need)
    }),
    ("15 for e above 1,000,000", |call| {
        call.refused(15) && call.need > 1_000_000
    }),
    ("15 for e of 4,294,967,295", |call| {
        call.refused(15) && call.need == u32::MAX
    }),
    ("15 while the gap is above 0, task closed", |call| {
        call.refused(15) && call.job.gap > 0 && !call.job.open
    }),
    ("15 while the job is open", |call| {
        call.refused(15) && call.job.open
    }),
    ("9 for e below C", |call| {
        call.refused(9) && call.need < call.task.budget
    }),
    ("9 for e = C", |call| {
        call.refused(9) && call.need == call.task.budget
    }),
];

// One accepted slot.
struct Moment {
    before: Machine,
    k: u32,
    slot: Slot,
    spared: [u32; MOST_TASKS],
}

const SLOTS: [Event<Moment>; 8] = [
    ("a job finished after fewer runs than C", |slot| {
        slot.has(|index, _, spared| slot.slot.finished >> index & 1 == 1 && spared > 0)
    }),
    ("a late job of e below C", |slot| {
        slot.has(|index, _, spared| slot.slot.late >> index & 1 == 1 && spared > 0)
    }),
    (
        "a job of e below C that runs in a slot of k above m",
        |slot| {
            let above = slot.k > slot.before.cores;
            above && slot.has(|index, _, spared| slot.slot.ran >> index & 1 == 1 && spared > 0)
        },
    ),
    ("an open job that the whole C would make urgent", |slot| {
        slot.has(|_, job, spared| !job.urgent() && job.left <= job.budget + spared)
    }),
    ("a slot that urgency by the whole C would change", |slot| {
        slot.differs(|_, job, spared| [job.budget + spared, job.budget])
    }),
    (
        "a slot that urgency by the table's C would change",
        |slot| slot.differs(|task, job, _| [task.budget, job.budget]),
    ),
    ("a slot that ties by the whole C would change", |slot| {
        slot.differs(|_, job, spared| [job.budget, job.budget + spared])
    }),
    ("a slot that whole budgets would change", |slot| {
        slot.differs(|_, job, spared| [job.budget + spared; 2])
    }),
];

const NO_TASK_NEED_0: &str = "8 for e = 0";
const NO_TASK_NEED_TOO_LARGE: &str = "8 for e above 1,000,000";
const NO_TASK_NEED_GOOD: &str = "8 for e that a task of the table takes";
const FINISH: &str = "a finish of a job of e below C";

/// The names of all events.
pub fn names() -> impl Iterator<Item = &'static str> {
    let of_slots = SLOTS.iter().map(|(name, _)| *name);
    let of_releases = RELEASES.iter().map(|(name, _)| *name);
    let others = [
        NO_TASK_NEED_0,
        NO_TASK_NEED_TOO_LARGE,
        NO_TASK_NEED_GOOD,
        FINISH,
    ];
    of_releases.chain(of_slots).chain(others)
}

impl Release {
    fn done(&self) -> bool {
        self.answer == Answer::Done
    }

    fn is_short(&self) -> bool {
        self.done() && self.need < self.task.budget
    }

    fn refused(&self, number: u32) -> bool {
        self.answer == Answer::Refused(number)
    }
}

impl Moment {
    // Whether some open job is so, by its place from 0, itself and C − e.
    fn has(&self, so: impl Fn(usize, &Job, u32) -> bool) -> bool {
        let mut jobs = self.before.jobs.iter().enumerate();
        jobs.any(|(index, job)| job.open && so(index, job, self.spared[index]))
    }

    // Whether other tasks would run if urgency and ties went by these two budgets.
    fn differs(&self, budgets: fn(&Task, &Job, u32) -> [u32; 2]) -> bool {
        let jobs = self.before.table.iter().zip(&self.before.jobs);
        let open = jobs.enumerate().filter(|(_, (_, job))| job.open);
        let rank = |(index, (task, job)): (usize, (&Task, &Job))| {
            let [urgency, tie] = budgets(task, job, self.spared[index]);
            (job.left > urgency, job.left, Reverse(tie), index)
        };
        let mut order: Vec<_> = open.map(rank).collect();
        order.sort_unstable();
        let runners = usize::try_from(self.slot.runners).expect("at most 16 runners");
        let first = order.iter().take(runners);
        first.map(|(_, _, _, index)| 1 << index).sum::<u32>() != self.slot.ran
    }
}

/// The events of a script's calls, one name for each time.
pub fn met(script: &Script) -> Vec<&'static str> {
    let Ok(machine) = script.start() else {
        return Vec::new();
    };
    let mut record = Record {
        machine,
        pasts: [Past::default(); MOST_TASKS],
        names: Vec::new(),
    };
    let calls = script.calls.iter();
    for call in calls.take_while(|call| !matches!(call, Call::Bad(_))) {
        match *call {
            Call::Release(number, need) => record.release(number, need),
            Call::Finish(number) => record.finish(number),
            Call::Slot(k) => record.slot(k),
            Call::Commit => record.commit(),
            Call::Offer(_) | Call::Bad(_) => record.offer(*call),
        }
    }
    record.names
}

struct Record {
    machine: Machine,
    pasts: [Past; MOST_TASKS],
    names: Vec<&'static str>,
}

impl Record {
    // The place of a task of the table, from 0.
    fn index(&self, number: u32) -> Option<usize> {
        let index = usize::try_from(number).ok()?.checked_sub(1)?;
        (index < self.machine.table.len()).then_some(index)
    }

    fn release(&mut self, number: u32, need: u32) {
        let before = self.index(number).map(|index| self.machine.jobs[index]);
        let answer = carry_out(&mut self.machine, Call::Release(number, need));
        let (Some(index), Some(job)) = (self.index(number), before) else {
            return self.release_of_no_task(need);
        };
        let release = Release {
            need,
            task: self.machine.table[index],
            job,
            answer,
            past: self.pasts[index],
        };
        let met = RELEASES.iter().filter(|(_, happens)| happens(&release));
        self.names.extend(met.map(|(name, _)| *name));
        self.pasts[index].remember(&release);
    }

    fn release_of_no_task(&mut self, need: u32) {
        let mut table = self.machine.table.iter();
        match need {
            0 => self.names.push(NO_TASK_NEED_0),
            1_000_001.. => self.names.push(NO_TASK_NEED_TOO_LARGE),
            _ if table.any(|task| need <= task.budget) => self.names.push(NO_TASK_NEED_GOOD),
            _ => {}
        }
    }

    fn finish(&mut self, number: u32) {
        let answer = carry_out(&mut self.machine, Call::Finish(number));
        let spared = self.index(number).map(|index| self.pasts[index].spared);
        if answer == Answer::Done && spared.is_some_and(|spared| spared > 0) {
            self.names.push(FINISH);
        }
    }

    fn offer(&mut self, call: Call) {
        carry_out(&mut self.machine, call);
    }

    fn commit(&mut self) {
        if carry_out(&mut self.machine, Call::Commit) == Answer::Done {
            self.pasts[self.machine.table.len() - 1].is_added = true;
        }
    }

    fn slot(&mut self, k: u32) {
        let before = self.machine.clone();
        let Answer::Ran(slot) = carry_out(&mut self.machine, Call::Slot(k)) else {
            return;
        };
        let moment = Moment {
            before,
            k,
            slot,
            spared: self.pasts.map(|past| past.spared),
        };
        let met = SLOTS.iter().filter(|(_, happens)| happens(&moment));
        self.names.extend(met.map(|(name, _)| *name));
        for past in &mut self.pasts {
            past.slots += 1;
            past.refused = past.refused.map(|slots| slots + 1);
        }
    }
}

impl Past {
    fn remember(&mut self, release: &Release) {
        if release.done() {
            self.need = Some(release.need);
            self.spared = release.task.budget - release.need;
            self.slots = 0;
            self.refused = None;
        } else if release.refused(15) && release.job.gap == 0 {
            self.refused = Some(0);
        }
    }
}
