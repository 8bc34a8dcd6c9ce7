//! Wrong versions of offer, commit and the soundness of a held task, which the generated
//! scripts and machines must be able to tell from document 02, change 10. A commit that
//! judges its task anew is not among them: on sound machines it answers the same.

use crate::machine::{Job, Machine};
use crate::probe::{HandMade, Probe};
use crate::script::{self, Answer, Call, Script};
use crate::slack;
use crate::tables::Admits;
use crate::tasks::{MOST_CORES, MOST_TASKS, Task};
use crate::window;

use Version::*;

/// How a version goes wrong, or that it does not.
#[derive(Clone, Copy, Debug, PartialEq, Eq)]
pub enum Version {
    Right,
    RefusedOfferClears,
    RefusedOfferHolds,
    FirstOfferStays,
    SecondOfferRefused,
    JudgedBesideHeld,
    JudgedByWindow,
    TwelveBeforeFive,
    OfferAdds,
    CommitKeeps,
    SeventeenFirst,
    AddedFirst,
    AddedWithGap,
    AddedWithCore,
    AddedOpen,
    OldJobStays,
    OldCoreStays,
    ReleaseDrops,
    FinishDrops,
    SlotDrops,
    RefusedCallDrops,
    IgnoresHeld,
    IgnoresHeldInSlots,
    Forgets5,
    Forgets12,
    Forgets13,
    SoundByWindow,
}

/// Which of the generators can tell a version.
#[derive(Clone, Copy, Debug, PartialEq, Eq)]
pub enum Told {
    ByBoth,
    /// No list of calls from a start can: an unsound machine or an entry past the count
    /// is needed.
    ByMachinesAlone,
}

/// Every wrong version.
pub const WRONG: [(&str, Version, Told); 26] = [
    ("a refused offer clears", RefusedOfferClears, Told::ByBoth),
    ("a refused offer is held", RefusedOfferHolds, Told::ByBoth),
    ("the first offer stays", FirstOfferStays, Told::ByBoth),
    ("a second offer refused", SecondOfferRefused, Told::ByBoth),
    ("judged beside the held", JudgedBesideHeld, Told::ByBoth),
    ("offer by the window test", JudgedByWindow, Told::ByBoth),
    ("12 before 5", TwelveBeforeFive, Told::ByBoth),
    ("an offer adds", OfferAdds, Told::ByBoth),
    ("a commit keeps holding", CommitKeeps, Told::ByBoth),
    ("17 before 0", SeventeenFirst, Told::ByMachinesAlone),
    ("added at the front", AddedFirst, Told::ByBoth),
    ("added with a gap", AddedWithGap, Told::ByBoth),
    ("added with a core", AddedWithCore, Told::ByBoth),
    ("added with an open job", AddedOpen, Told::ByBoth),
    (
        "the entry's old job stays",
        OldJobStays,
        Told::ByMachinesAlone,
    ),
    (
        "the entry's old core stays",
        OldCoreStays,
        Told::ByMachinesAlone,
    ),
    ("a release drops the held", ReleaseDrops, Told::ByBoth),
    ("a finish drops the held", FinishDrops, Told::ByBoth),
    ("a slot drops the held", SlotDrops, Told::ByBoth),
    (
        "a refused call drops the held",
        RefusedCallDrops,
        Told::ByBoth,
    ),
    (
        "soundness ignores the held",
        IgnoresHeld,
        Told::ByMachinesAlone,
    ),
    (
        "slots ignore the held",
        IgnoresHeldInSlots,
        Told::ByMachinesAlone,
    ),
    ("soundness forgets 5", Forgets5, Told::ByMachinesAlone),
    ("soundness forgets 12", Forgets12, Told::ByMachinesAlone),
    ("soundness forgets 13", Forgets13, Told::ByMachinesAlone),
    ("soundness by the window test", SoundByWindow, Told::ByBoth),
];

impl Version {
    /// Whether the version answers another line to some call of a script that starts.
    pub fn differs_on(self, script: &Script) -> bool {
        let Ok(mut machine) = script.start() else {
            return false;
        };
        let mut calls = script.calls.iter().zip(script.play());
        calls.any(|(call, answer)| {
            !matches!(call, Call::Bad(_)) && self.carry_out(&mut machine, *call) != answer
        })
    }

    /// The answer to a call on a machine made by hand, and the machine after it.
    pub fn play(self, probe: &Probe) -> (Answer, HandMade) {
        let mut after = probe.machine.clone();
        let Some(mut machine) = after.machine() else {
            let first = self == SeventeenFirst && probe.call == Call::Commit;
            let none = first && after.offered.is_none();
            return (Answer::Refused(if none { 17 } else { 0 }), after);
        };
        let answer = self.carry_out(&mut machine, probe.call);
        after.write(&machine);
        if probe.call == Call::Commit && answer == Answer::Done {
            self.restore(&mut after, &probe.machine);
        }
        (answer, after)
    }

    // What a commit leaves of the entry that it writes over.
    fn restore(self, after: &mut HandMade, before: &HandMade) {
        let index = before.tasks().expect("an accepted commit");
        let Some(entry) = after.entries.get_mut(index) else {
            return;
        };
        match self {
            OldJobStays => entry.job = before.entries[index].job,
            OldCoreStays => entry.job.core = before.entries[index].job.core,
            _ => {}
        }
    }

    // One call on a machine.
    fn carry_out(self, machine: &mut Machine, call: Call) -> Answer {
        let none = call == Call::Commit && machine.offered.is_none();
        if none && self == SeventeenFirst {
            return Answer::Refused(17);
        }
        if !self.is_sound(machine, call) {
            return Answer::Refused(0);
        }
        match call {
            Call::Offer(task) => self.offer(machine, task),
            Call::Commit if none => Answer::Refused(17),
            Call::Commit => self.commit(machine),
            _ => self.other(machine, call),
        }
    }

    fn is_sound(self, machine: &Machine, call: Call) -> bool {
        let held = machine.offered;
        let ignored = match self {
            IgnoresHeld => true,
            IgnoresHeldInSlots => matches!(call, Call::Slot(_)),
            _ => false,
        };
        let admits = match self {
            SoundByWindow => window::admits,
            _ => slack::admits,
        };
        let refusal = held.and_then(|task| self.refusal(machine, task, admits));
        let forgotten = match self {
            Forgets5 => refusal == Some(5),
            Forgets12 => refusal == Some(12),
            Forgets13 => refusal == Some(13),
            _ => ignored,
        };
        let bare = Machine {
            offered: None,
            ..machine.clone()
        };
        bare.is_sound() && (refusal.is_none() || forgotten)
    }

    // 5, 12 or 13 for a task at the end of the table.
    fn refusal(self, machine: &Machine, task: Task, admits: Admits) -> Option<u32> {
        let full = machine.table.len() == MOST_TASKS;
        if self == TwelveBeforeFive && full {
            return Some(12);
        }
        if !task.fits() {
            return Some(5);
        }
        let longer = [machine.table.as_slice(), &[task]].concat();
        match full {
            true => Some(12),
            false => (!admits(&longer, machine.cores)).then_some(13),
        }
    }

    // The refusal of an offered task.
    fn offer_refusal(self, machine: &Machine, task: Task) -> Option<u32> {
        match (self, machine.offered) {
            (SecondOfferRefused, Some(_)) => Some(17),
            (JudgedByWindow, _) => self.refusal(machine, task, window::admits),
            (JudgedBesideHeld, Some(held)) => {
                let beside = [machine.table.as_slice(), &[held, task]].concat();
                let right = self.refusal(machine, task, slack::admits);
                let admitted = slack::admits(&beside, machine.cores);
                right.or((!admitted).then_some(13))
            }
            _ => self.refusal(machine, task, slack::admits),
        }
    }

    fn offer(self, machine: &mut Machine, task: Task) -> Answer {
        if let Some(number) = self.offer_refusal(machine, task) {
            match self {
                RefusedOfferClears => machine.offered = None,
                RefusedOfferHolds => machine.offered = Some(task),
                _ => {}
            }
            return Answer::Refused(number);
        }
        if self != FirstOfferStays || machine.offered.is_none() {
            machine.offered = Some(task);
        }
        if self == OfferAdds {
            machine.table.push(task);
            machine.jobs.push(Job::default());
        }
        Answer::Done
    }

    // Of a machine that holds a task.
    fn commit(self, machine: &mut Machine) -> Answer {
        let task = machine.offered.expect("a held task");
        if self != CommitKeeps {
            machine.offered = None;
        }
        let at = match self {
            OfferAdds => return Answer::Done,
            AddedFirst => 0,
            _ => machine.table.len(),
        };
        let job = self.added(machine, task);
        machine.table.insert(at, task);
        machine.jobs.insert(at, job);
        Answer::Done
    }

    // The job of the task that a commit adds.
    fn added(self, machine: &Machine, task: Task) -> Job {
        let fresh = Job::default();
        let has = |core: &u32| machine.jobs.iter().any(|job| job.core == *core);
        match self {
            AddedWithGap => Job {
                gap: task.period,
                ..fresh
            },
            AddedWithCore => Job {
                core: (1..=MOST_CORES).find(|core| !has(core)).unwrap_or(0),
                ..fresh
            },
            AddedOpen => Job {
                open: true,
                left: task.deadline,
                budget: task.budget,
                gap: task.period,
                ..fresh
            },
            _ => fresh,
        }
    }

    // A release, finish or slot on the machine without the held task, which comes back.
    fn other(self, machine: &mut Machine, call: Call) -> Answer {
        let held = machine.offered.take();
        let answer = script::carry_out(machine, call);
        let refused = matches!(answer, Answer::Refused(_));
        let drops = match call {
            _ if refused => self == RefusedCallDrops,
            Call::Release(..) => self == ReleaseDrops,
            Call::Finish(_) => self == FinishDrops,
            _ => self == SlotDrops,
        };
        if !drops {
            machine.offered = held;
        }
        answer
    }
}
