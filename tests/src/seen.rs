//! What a comparison of machines made by hand should meet: events about the gap of
//! an open task (document 02, change 3), the limits of sound machines, jobs that no
//! list of calls leaves, recorded cores (change 4), needs (change 5), the held task (change
//! 10), and the entries past the count.

use std::collections::BTreeSet;

use crate::assignment::{self, Assignment};
use crate::faults::{Fault, HELD_12, HELD_13, OF_THE_OFFER, faults};
use crate::machine::{Job, Slot};
use crate::probe::{Entry, HandMade, Probe};
use crate::script::{Answer, Call};
use crate::slack::admits;
use crate::tasks::{MOST_TASKS, Task};
use crate::window;

pub const COMMIT: &str = "COMMIT";
pub const FINISH: &str = "FINISH";
pub const OFFER: &str = "OFFER";
pub const RELEASE: &str = "RELEASE";
pub const SLOT: &str = "SLOT";

/// One call on a machine made by hand, as the simulated machine carries it out.
pub struct Seen {
    pub before: HandMade,
    pub call: Call,
    pub answer: Answer,
    pub after: HandMade,
    pub faults: Vec<Fault>,
}

/// An event, and whether a call is one.
pub type Event = (&'static str, fn(&Seen) -> bool);

// The gap of an open task against its left and against nothing else (change 3).
const GAPS: [Event; 18] = [
    ("sound, open, gap = left, D = T", |seen| {
        seen.sound_open(|task, job| job.gap == job.left && task.deadline == task.period)
    }),
    ("sound, open, gap = left, D below T", |seen| {
        seen.sound_open(|task, job| job.gap == job.left && task.deadline < task.period)
    }),
    ("sound, open, gap = left + 1", |seen| {
        seen.sound_open(|_, job| job.gap == job.left + 1)
    }),
    (
        "sound, open, gap above left, below left + (T − D)",
        |seen| seen.sound_open(|task, job| job.left < job.gap && job.gap < reached_gap(task, job)),
    ),
    ("sound, open, gap = left + (T − D) above left", |seen| {
        seen.sound_open(|task, job| job.left < job.gap && job.gap == reached_gap(task, job))
    }),
    ("sound, open, gap above left + (T − D)", |seen| {
        seen.sound_open(|task, job| job.gap > reached_gap(task, job))
    }),
    ("sound, open, gap below D", |seen| {
        seen.sound_open(|task, job| job.gap < task.deadline)
    }),
    ("sound, open, gap below budget", |seen| {
        seen.sound_open(|_, job| job.gap < job.budget)
    }),
    ("sound, closed, gap 0", |seen| {
        seen.sound_closed(|_, job| job.gap == 0)
    }),
    ("sound, closed, gap above 0 and below D", |seen| {
        seen.sound_closed(|task, job| 0 < job.gap && job.gap < task.deadline)
    }),
    ("sound, closed, gap above D", |seen| {
        seen.sound_closed(|task, job| job.gap > task.deadline)
    }),
    ("0 for gap = left − 1 above 0 alone", |seen| {
        seen.gap_below_left(|_, job| job.gap > 0 && job.gap == job.left - 1)
    }),
    ("0 for gap 0 and left 1 alone", |seen| {
        seen.gap_below_left(|_, job| job.gap == 0 && job.left == 1)
    }),
    ("0 for gap below left − 1 and above 0 alone", |seen| {
        seen.gap_below_left(|_, job| job.gap > 0 && job.gap < job.left - 1)
    }),
    ("0 for gap below left alone, not below budget", |seen| {
        seen.gap_below_left(|_, job| job.gap >= job.budget)
    }),
    ("0 for gap below left alone, not below C", |seen| {
        seen.gap_below_left(|task, job| job.gap >= task.budget)
    }),
    ("0 for gap below left alone, D = T", |seen| {
        seen.gap_below_left(|task, _| task.deadline == task.period)
    }),
    ("0 for gap below left alone, another task named", |seen| {
        let named = seen.named().map(|entry| entry.job);
        let sound = named.is_some_and(|job| !job.open || job.gap >= job.left);
        sound && seen.gap_below_left(|_, _| true)
    }),
];

// Sound numbers at the other limits, each in an accepted call.
const LIMITS: [Event; 14] = [
    ("accepted, count 1", |seen| {
        seen.accepted() && seen.before.count == 1
    }),
    ("accepted, count 32", |seen| {
        seen.accepted() && seen.before.count == 32
    }),
    ("accepted, m 1", |seen| {
        seen.accepted() && seen.before.cores == 1
    }),
    ("accepted, m 16", |seen| {
        seen.accepted() && seen.before.cores == 16
    }),
    ("accepted, C 1 below D", |seen| {
        seen.accepted_task(|task, _| task.budget == 1 && 1 < task.deadline)
    }),
    ("accepted, C = D", |seen| {
        seen.accepted_task(|task, _| task.budget == task.deadline)
    }),
    ("accepted, D = T", |seen| {
        seen.accepted_task(|task, _| task.deadline == task.period)
    }),
    ("accepted, T 1,000,000", |seen| {
        seen.accepted_task(|task, _| task.period == 1_000_000)
    }),
    ("accepted, open, gap = T", |seen| {
        seen.accepted_task(|task, job| job.open && job.gap == task.period)
    }),
    ("accepted, closed, gap = T", |seen| {
        seen.accepted_task(|task, job| !job.open && job.gap == task.period)
    }),
    ("accepted, left 1", |seen| {
        seen.accepted_task(|_, job| job.left == 1)
    }),
    ("accepted, left = D", |seen| {
        seen.accepted_task(|task, job| job.left == task.deadline)
    }),
    ("accepted, budget 1", |seen| {
        seen.accepted_task(|_, job| job.budget == 1)
    }),
    ("accepted, budget = C", |seen| {
        seen.accepted_task(|task, job| job.budget == task.budget)
    }),
];

// Releases, finishes and slots, also of jobs that no list of calls leaves.
const JOBS: [Event; 15] = [
    ("release of an open job, refused by 9", |seen| {
        seen.of_open_job() && seen.is(RELEASE, Answer::Refused(9))
    }),
    (
        "release of an open job of gap = left, refused by 9",
        |seen| {
            let job = seen.named().map(|entry| entry.job);
            let at_left = job.is_some_and(|job| job.open && job.gap == job.left);
            at_left && seen.is(RELEASE, Answer::Refused(9))
        },
    ),
    ("release of an open job of gap 0, refused by 0", |seen| {
        let gap = seen.named().map(|entry| entry.job.gap);
        let alone = seen.alone().is_some();
        alone && gap == Some(0) && seen.of_open_job() && seen.is(RELEASE, Answer::Refused(0))
    }),
    ("release of a closed job, refused by 9", |seen| {
        !seen.of_open_job() && seen.is(RELEASE, Answer::Refused(9))
    }),
    ("finish of a job that no call leaves", |seen| {
        let so = |entry: &Entry| entry.job.gap != reached_gap(&entry.task, &entry.job);
        seen.is(FINISH, Answer::Done) && seen.named().is_some_and(so)
    }),
    ("slot of nobody", |seen| seen.slot(|slot| slot.runners == 0)),
    ("slot of 16 runners", |seen| {
        seen.slot(|slot| slot.runners == 16)
    }),
    ("slot in which the 32nd task runs", |seen| {
        seen.slot(|slot| slot.ran >> 31 == 1)
    }),
    ("slot of k above m", |seen| {
        let above = matches!(seen.call, Call::Slot(k) if k > seen.before.cores);
        above && seen.accepted()
    }),
    ("slot of k = m below the open tasks", |seen| {
        let open = seen.table().iter().filter(|entry| entry.job.open).count();
        let m = usize::try_from(seen.before.cores).expect("a number of 32 bits");
        seen.slot(|_| true) && seen.call == Call::Slot(seen.before.cores) && m < open
    }),
    ("slot that finishes a job", |seen| {
        seen.slot(|slot| slot.finished != 0)
    }),
    ("slot with a late job that ran", |seen| {
        seen.slot(|slot| slot.late & slot.ran != 0)
    }),
    ("slot with a late job that waited", |seen| {
        seen.slot(|slot| slot.late & !slot.ran != 0)
    }),
    ("slot with finished and late jobs", |seen| {
        seen.slot(|slot| slot.finished != 0 && slot.late != 0)
    }),
    ("slot with a late job, table admitted", |seen| {
        seen.slot(|slot| slot.late != 0) && seen.is_admitted()
    }),
];

// Recorded cores: which are sound, and which calls keep them.
const RECORDS: [Event; 17] = [
    ("accepted, core 16 recorded", |seen| {
        seen.accepted_task(|_, job| job.core == 16)
    }),
    ("accepted, a closed task with a core", |seen| {
        seen.accepted_task(|_, job| !job.open && job.core > 0)
    }),
    ("accepted, two without a core and one with", |seen| {
        let without = seen.table().iter().filter(|entry| entry.job.core == 0);
        seen.accepted_task(|_, job| job.core > 0) && without.count() >= 2
    }),
    ("0 for a core above 16 of an open task alone", |seen| {
        seen.core_above_16(|job| job.open)
    }),
    ("0 for a core above 16 of a closed task alone", |seen| {
        seen.core_above_16(|job| !job.open)
    }),
    (
        "0 for one core twice alone, first and last of many",
        |seen| {
            let last = seen.before.count;
            seen.sharers() == Some([1, last]) && last > 2
        },
    ),
    ("0 for one core twice alone, neighbours", |seen| {
        let sharers = seen.sharers();
        sharers.is_some_and(|[one, other]| other == one + 1)
    }),
    ("0 for one core twice alone, both open", |seen| {
        seen.opens_of_sharers() == Some([true, true])
    }),
    ("0 for one core twice alone, one open", |seen| {
        seen.opens_of_sharers()
            .is_some_and(|[one, other]| one != other)
    }),
    ("0 for one core twice alone, both closed", |seen| {
        seen.opens_of_sharers() == Some([false, false])
    }),
    ("0 for core 16 twice alone", |seen| {
        seen.sharers().is_some() && seen.has_task(|_, job| job.core == 16)
    }),
    ("release of a task with a core", |seen| {
        seen.is(RELEASE, Answer::Done) && seen.named().is_some_and(|entry| entry.job.core > 0)
    }),
    ("finish of a task with a core", |seen| {
        seen.is(FINISH, Answer::Done) && seen.named().is_some_and(|entry| entry.job.core > 0)
    }),
    ("offer, cores recorded", |seen| {
        seen.is(OFFER, Answer::Done) && seen.has_task(|_, job| job.core > 0)
    }),
    ("commit, cores recorded", |seen| {
        seen.is(COMMIT, Answer::Done) && seen.has_task(|_, job| job.core > 0)
    }),
    ("refused slot, cores recorded", |seen| {
        seen.is(SLOT, Answer::Refused(14)) && seen.has_task(|_, job| job.core > 0)
    }),
    ("refused offer, cores recorded", |seen| {
        seen.is(OFFER, Answer::Refused(13)) && seen.has_task(|_, job| job.core > 0)
    }),
];

// The need that a release names, against C and nothing else, and the order of the
// refusals.
const NEEDS: [Event; 21] = [
    ("release with e = C", |seen| {
        seen.need(Answer::Done, |need, task, _| need == task.budget)
    }),
    ("release with e below C", |seen| {
        seen.need(Answer::Done, |need, task, _| need < task.budget)
    }),
    ("release with e = 1 below C", |seen| {
        seen.need(Answer::Done, |need, task, _| need == 1 && 1 < task.budget)
    }),
    ("release with e = C − 1 above 1", |seen| {
        seen.need(Answer::Done, |need, task, _| {
            need > 1 && need == task.budget - 1
        })
    }),
    ("release that the whole C would make urgent", |seen| {
        seen.need(Answer::Done, |need, task, _| {
            need < task.budget && task.budget == task.deadline
        })
    }),
    ("release with e below C, core recorded", |seen| {
        seen.need(Answer::Done, |need, task, job| {
            need < task.budget && job.core > 0
        })
    }),
    ("15 for e 0 of a due task", |seen| {
        seen.need(Answer::Refused(15), |need, _, job| {
            need == 0 && job.gap == 0
        })
    }),
    ("15 for e = C + 1 of a due task", |seen| {
        seen.need(Answer::Refused(15), |need, task, job| {
            need == task.budget + 1 && job.gap == 0
        })
    }),
    ("15 for e = D above C", |seen| {
        seen.need(Answer::Refused(15), |need, task, _| need == task.deadline)
    }),
    ("15 for e = T above D", |seen| {
        seen.need(Answer::Refused(15), |need, task, _| {
            need == task.period && task.period > task.deadline
        })
    }),
    ("15 for e of 4,294,967,295", |seen| {
        seen.need(Answer::Refused(15), |need, _, _| need == u32::MAX)
    }),
    ("15 for e 0 while the gap is above 0, task closed", |seen| {
        seen.need(Answer::Refused(15), |need, _, job| {
            need == 0 && job.gap > 0 && !job.open
        })
    }),
    (
        "15 for e above C while the gap is above 0, task closed",
        |seen| {
            seen.need(Answer::Refused(15), |need, _, job| {
                need > 0 && job.gap > 0 && !job.open
            })
        },
    ),
    ("15 for e 0 of an open job", |seen| {
        seen.need(Answer::Refused(15), |need, _, job| need == 0 && job.open)
    }),
    ("15 for e above C of an open job", |seen| {
        seen.need(Answer::Refused(15), |need, _, job| need > 0 && job.open)
    }),
    ("9 for e = C", |seen| {
        seen.need(Answer::Refused(9), |need, task, _| need == task.budget)
    }),
    ("9 for e below C", |seen| {
        seen.need(Answer::Refused(9), |need, task, _| need < task.budget)
    }),
    ("8 for e 0", |seen| {
        seen.is(RELEASE, Answer::Refused(8)) && matches!(seen.call, Call::Release(_, 0))
    }),
    ("8 for e above 1,000,000", |seen| {
        seen.is(RELEASE, Answer::Refused(8)) && matches!(seen.call, Call::Release(_, 1_000_001..))
    }),
    ("0 for e 0 or above C", |seen| {
        seen.need(Answer::Refused(0), |need, task, _| {
            need == 0 || need > task.budget
        })
    }),
    ("0 for e 0 of no task", |seen| {
        let nobody = seen.named().is_none() && matches!(seen.call, Call::Release(_, 0));
        nobody && seen.is(RELEASE, Answer::Refused(0))
    }),
];

// Offers, by what is held before them.
const OFFERS: [Event; 14] = [
    ("offer, none held", |seen| {
        seen.is(OFFER, Answer::Done) && !seen.holds()
    }),
    ("offer that displaces another task", |seen| {
        seen.is(OFFER, Answer::Done) && seen.holds() && !seen.offers_held()
    }),
    ("offer of the held task", |seen| {
        seen.is(OFFER, Answer::Done) && seen.offers_held()
    }),
    ("offer that would be refused beside the held task", |seen| {
        seen.is(OFFER, Answer::Done) && seen.is_refused_beside_held()
    }),
    ("offer that the window test would refuse", |seen| {
        let admits = |task| window::admits(&seen.with(task), seen.before.cores);
        seen.is(OFFER, Answer::Done) && !seen.offer().is_some_and(admits)
    }),
    ("offer to 31 tasks", |seen| {
        seen.is(OFFER, Answer::Done) && seen.before.count == 31
    }),
    ("offer while a job is open", |seen| {
        seen.is(OFFER, Answer::Done) && seen.has_task(|_, job| job.open)
    }),
    ("5 for an offer, none held", |seen| {
        seen.is(OFFER, Answer::Refused(5)) && !seen.holds()
    }),
    ("5 for an offer, a task held", |seen| {
        seen.is(OFFER, Answer::Refused(5)) && seen.holds()
    }),
    ("5 for an offer to 32 tasks", |seen| {
        seen.is(OFFER, Answer::Refused(5)) && seen.before.count == 32
    }),
    ("13 for an offer, none held", |seen| {
        seen.is(OFFER, Answer::Refused(13)) && !seen.holds()
    }),
    ("13 for an offer, a task held", |seen| {
        seen.is(OFFER, Answer::Refused(13)) && seen.holds()
    }),
    (
        "0 for 12 of the held task alone, offer of that task",
        |seen| seen.offers_held() && seen.held_fault() == Some(HELD_12),
    ),
    ("0 for the held task alone, offer that fits", |seen| {
        let other = seen.offer().is_some_and(|task| task.fits());
        other && !seen.offers_held() && seen.held_fault().is_some()
    }),
];

// Commits.
const COMMITS: [Event; 6] = [
    (
        "commit of a task that the window test would refuse",
        |seen| seen.is(COMMIT, Answer::Done) && !seen.held_by_window(),
    ),
    ("commit while a job is open", |seen| {
        seen.is(COMMIT, Answer::Done) && seen.has_task(|_, job| job.open)
    }),
    ("17 while a job is open", |seen| {
        seen.is(COMMIT, Answer::Refused(17)) && seen.has_task(|_, job| job.open)
    }),
    ("17, table not admitted", |seen| {
        seen.is(COMMIT, Answer::Refused(17)) && !seen.is_admitted()
    }),
    ("0 for a commit, none held", |seen| {
        seen.is(COMMIT, Answer::Refused(0)) && !seen.holds()
    }),
    ("0 for a commit, the held task at no fault", |seen| {
        seen.is(COMMIT, Answer::Refused(0)) && seen.alone().is_some() && seen.holds_well()
    }),
];

// The other calls while a task is held.
const HOLDING: [Event; 12] = [
    ("release, a task held", |seen| {
        seen.is(RELEASE, Answer::Done) && seen.holds()
    }),
    ("finish, a task held", |seen| {
        seen.is(FINISH, Answer::Done) && seen.holds()
    }),
    ("slot, a task held", |seen| {
        seen.slot(|slot| slot.runners > 0) && seen.holds()
    }),
    ("slot with a late job, a task held", |seen| {
        seen.slot(|slot| slot.late != 0) && seen.holds()
    }),
    ("8 for a release, a task held", |seen| {
        seen.is(RELEASE, Answer::Refused(8)) && seen.holds()
    }),
    (
        "8 for a release of the number after the last, a task held",
        |seen| seen.is(RELEASE, Answer::Refused(8)) && seen.holds() && seen.next_is(|_| true),
    ),
    ("15 for a release, a task held", |seen| {
        seen.is(RELEASE, Answer::Refused(15)) && seen.holds()
    }),
    ("9 for a release, a task held", |seen| {
        seen.is(RELEASE, Answer::Refused(9)) && seen.holds()
    }),
    ("8 for a finish, a task held", |seen| {
        seen.is(FINISH, Answer::Refused(8)) && seen.holds()
    }),
    ("11 for a finish, a task held", |seen| {
        seen.is(FINISH, Answer::Refused(11)) && seen.holds()
    }),
    ("14 for a slot, a task held", |seen| {
        seen.is(SLOT, Answer::Refused(14)) && seen.holds()
    }),
    ("0 for another fault alone, a task held", |seen| {
        seen.alone().is_some() && seen.holds_well()
    }),
];

// The held task at the limits of 5, 12 and 13.
const HELD: [Event; 13] = [
    ("sound, held beside 31 tasks", |seen| {
        seen.sound_held(|_| true) && seen.before.count == 31
    }),
    ("sound, held C 1", |seen| {
        seen.sound_held(|task| task.budget == 1)
    }),
    ("sound, held C = D", |seen| {
        seen.sound_held(|task| task.budget == task.deadline)
    }),
    ("sound, held D = T", |seen| {
        seen.sound_held(|task| task.deadline == task.period)
    }),
    ("sound, held T 1,000,000", |seen| {
        seen.sound_held(|task| task.period == 1_000_000)
    }),
    ("sound, held as a task of the table", |seen| {
        let held = seen.before.offered;
        seen.sound_held(|_| true) && seen.has_task(|task, _| Some(*task) == held)
    }),
    ("sound, held and refused by the window test", |seen| {
        seen.sound_held(|_| true) && !seen.held_by_window()
    }),
    (
        "sound, held and refused with a slot more of budget",
        |seen| {
            let within = seen.sound_held(|task| task.budget < task.deadline);
            within && !seen.admits_held(|task| task.budget + 1, 0)
        },
    ),
    (
        "0 for 13 alone, admitted with a slot less of budget",
        |seen| {
            let at_13 = seen.held_fault() == Some(HELD_13);
            at_13 && seen.admits_held(|task| task.budget - 1, 0)
        },
    ),
    ("0 for 13 alone, admitted on a core more", |seen| {
        let at_13 = seen.held_fault() == Some(HELD_13);
        at_13 && seen.admits_held(|task| task.budget, 1)
    }),
    (
        "0 for 13 alone, table admitted without the held task",
        |seen| seen.held_fault() == Some(HELD_13) && seen.is_admitted(),
    ),
    ("0 for 13 alone, table not admitted without it", |seen| {
        seen.held_fault() == Some(HELD_13) && !seen.is_admitted()
    }),
    ("0 for 12 alone, a task of the table held", |seen| {
        let held = seen.before.offered;
        seen.held_fault() == Some(HELD_12) && seen.has_task(|task, _| Some(*task) == held)
    }),
];

// Entries past the count: no call reads them, and only a commit writes its own.
const PAST: [Event; 21] = [
    ("offer, entries past the count not 0", |seen| {
        seen.is(OFFER, Answer::Done) && seen.past(|entry| *entry != Entry::ZERO)
    }),
    ("release, entries past the count not 0", |seen| {
        seen.is(RELEASE, Answer::Done) && seen.past(|entry| *entry != Entry::ZERO)
    }),
    ("finish, entries past the count not 0", |seen| {
        seen.is(FINISH, Answer::Done) && seen.past(|entry| *entry != Entry::ZERO)
    }),
    ("slot, a job open past the count", |seen| {
        seen.slot(|_| true) && seen.past(|entry| entry.job.open)
    }),
    ("slot, a gap past the count", |seen| {
        seen.slot(|_| true) && seen.past(|entry| entry.job.gap > 0)
    }),
    ("sound, an unsound entry past the count", |seen| {
        seen.faults.is_empty() && seen.past(|entry| !entry.task.fits())
    }),
    ("0, entries past the count not 0", |seen| {
        !seen.faults.is_empty() && seen.past(|entry| *entry != Entry::ZERO)
    }),
    ("release of a task due past the count, refused", |seen| {
        let due = |entry: &Entry| entry.task.fits() && !entry.job.open && entry.job.gap == 0;
        seen.is(RELEASE, Answer::Refused(8)) && seen.next_is(due)
    }),
    ("finish of a job open past the count, refused", |seen| {
        seen.is(FINISH, Answer::Refused(8)) && seen.next_is(|entry| entry.job.open)
    }),
    ("commit over an entry of zeros", |seen| {
        seen.committed(|own, _| *own == Entry::ZERO)
    }),
    ("commit over a closed entry with a gap", |seen| {
        seen.committed(|own, _| !own.job.open && own.job.gap > 0)
    }),
    ("commit over an open entry", |seen| {
        seen.committed(|own, _| own.job.open)
    }),
    ("commit before entries that are not 0", |seen| {
        seen.committed(|_, rest| rest.iter().any(|entry| *entry != Entry::ZERO))
    }),
    ("commit to 31 tasks", |seen| {
        seen.committed(|_, rest| rest.is_empty()) && seen.after.count == 32
    }),
    ("offer to 31 tasks, refused by 13", |seen| {
        seen.before.count == 31 && seen.is(OFFER, Answer::Refused(13))
    }),
    ("slot, a core past the count", |seen| {
        seen.slot(|_| true) && seen.past(|entry| entry.job.core > 0)
    }),
    ("slot, an open task past the count with a core", |seen| {
        seen.slot(|_| true) && seen.past(|entry| entry.job.open && entry.job.core > 0)
    }),
    ("sound, a core above 16 past the count", |seen| {
        seen.faults.is_empty() && seen.past(|entry| entry.job.core > 16)
    }),
    ("sound, one core in the table and past the count", |seen| {
        let past = cores(&seen.before.entries[seen.table().len()..]);
        let mut shared = cores(seen.table()).into_iter();
        seen.faults.is_empty() && shared.any(|core| past.contains(&core))
    }),
    ("slot that gives a core recorded past the count", |seen| {
        let past = cores(&seen.before.entries[seen.table().len()..]);
        let given = matches!(&seen.answer, Answer::Ran(slot)
            if slot.assigned.iter().any(|core| past.contains(core)));
        given && seen.faults.is_empty()
    }),
    ("commit over an entry with a core", |seen| {
        seen.committed(|own, _| own.job.core > 0)
    }),
];

// The cores of these entries, without 0.
fn cores(entries: &[Entry]) -> BTreeSet<u32> {
    let cores = entries.iter().map(|entry| entry.job.core);
    cores.filter(|core| *core > 0).collect()
}

// The gap that an open job has after any list of calls from a start.
fn reached_gap(task: &Task, job: &Job) -> u32 {
    job.left + (task.period - task.deadline)
}

impl Seen {
    pub fn new(probe: &Probe) -> Seen {
        let (answer, after) = probe.play();
        Seen {
            before: probe.machine.clone(),
            call: probe.call,
            answer,
            after,
            faults: faults(&probe.machine),
        }
    }

    /// The names of the events that this call is.
    pub fn met(&self) -> Vec<&'static str> {
        let met = events().filter(|(_, happens)| happens(self));
        let mut names: Vec<&str> = met.map(|(name, _)| *name).collect();
        if let Some(assignment) = self.assignment() {
            names.extend(assignment.met());
        }
        names
    }

    /// The first word of the call's line.
    pub fn name(&self) -> &'static str {
        match self.call {
            Call::Commit => COMMIT,
            Call::Finish(_) => FINISH,
            Call::Offer(_) => OFFER,
            Call::Release(..) => RELEASE,
            Call::Slot(_) => SLOT,
            Call::Bad(line) => panic!("no call: {line}"),
        }
    }

    fn accepted(&self) -> bool {
        !matches!(self.answer, Answer::Refused(_))
    }

    // The entries of the table; all of them if the count is above 32.
    fn table(&self) -> &[Entry] {
        &self.before.entries[..self.before.tasks().unwrap_or(MOST_TASKS)]
    }

    fn has_task(&self, so: impl Fn(&Task, &Job) -> bool) -> bool {
        let mut entries = self.table().iter();
        entries.any(|entry| so(&entry.task, &entry.job))
    }

    fn sound_open(&self, so: fn(&Task, &Job) -> bool) -> bool {
        self.faults.is_empty() && self.has_task(|task, job| job.open && so(task, job))
    }

    fn sound_closed(&self, so: fn(&Task, &Job) -> bool) -> bool {
        self.faults.is_empty() && self.has_task(|task, job| !job.open && so(task, job))
    }

    fn accepted_task(&self, so: fn(&Task, &Job) -> bool) -> bool {
        self.accepted() && self.has_task(so)
    }

    /// The fault of the machine, if it has just one.
    pub fn alone(&self) -> Option<&Fault> {
        match self.faults.as_slice() {
            [fault] => Some(fault),
            _ => None,
        }
    }

    // Nothing but a gap below left is wrong, of a task that is so.
    fn gap_below_left(&self, so: fn(&Task, &Job) -> bool) -> bool {
        let alone = self.alone();
        alone.is_some_and(|fault| fault.clause == "open with gap below left")
            && self.has_task(|task, job| job.open && job.gap < job.left && so(task, job))
    }

    // Nothing but a core above 16 is wrong, of a job that is so.
    fn core_above_16(&self, so: fn(&Job) -> bool) -> bool {
        let alone = self.alone();
        alone.is_some_and(|fault| fault.clause == "core above 16")
            && self.has_task(|_, job| job.core > 16 && so(job))
    }

    // The numbers of two tasks with one core, if nothing else is wrong.
    fn sharers(&self) -> Option<[u32; 2]> {
        let fault = self.alone()?;
        if fault.clause != "one core twice" || fault.beyond > 1 {
            return None;
        }
        let table: Vec<(u32, &Entry)> = (1..).zip(self.table()).collect();
        let same = |core: u32| {
            table
                .iter()
                .filter(move |(_, entry)| entry.job.core == core)
        };
        let mut cores = cores(self.table()).into_iter();
        let shared = cores.find(|core| same(*core).count() == 2)?;
        let numbers: Vec<u32> = same(shared).map(|(number, _)| *number).collect();
        numbers.try_into().ok()
    }

    fn opens_of_sharers(&self) -> Option<[bool; 2]> {
        let open = |number: u32| {
            let index = usize::try_from(number - 1).expect("at most 32 tasks");
            self.before.entries[index].job.open
        };
        self.sharers().map(|numbers| numbers.map(open))
    }

    // How an accepted slot gives its cores.
    fn assignment(&self) -> Option<Assignment> {
        match (self.call, &self.answer) {
            (Call::Slot(k), Answer::Ran(slot)) => {
                Some(Assignment::new(&self.before.machine()?, k, slot))
            }
            _ => None,
        }
    }

    // The entry of the task that a release or finish names.
    fn named(&self) -> Option<&Entry> {
        let (Call::Release(number, _) | Call::Finish(number)) = self.call else {
            return None;
        };
        let number = usize::try_from(number).expect("a number of 32 bits");
        self.table().get(number.checked_sub(1)?)
    }

    // A release with this answer, by its need, its task and the job before it.
    fn need(&self, answer: Answer, so: fn(u32, &Task, &Job) -> bool) -> bool {
        let Call::Release(_, need) = self.call else {
            return false;
        };
        let is_so = |entry: &Entry| so(need, &entry.task, &entry.job);
        self.answer == answer && self.named().is_some_and(is_so)
    }

    fn of_open_job(&self) -> bool {
        self.named().is_some_and(|entry| entry.job.open)
    }

    // A call of this name with this answer.
    fn is(&self, call: &str, answer: Answer) -> bool {
        self.name() == call && self.answer == answer
    }

    fn slot(&self, so: fn(&Slot) -> bool) -> bool {
        matches!(&self.answer, Answer::Ran(slot) if so(slot))
    }

    fn is_admitted(&self) -> bool {
        let table: Vec<Task> = self.table().iter().map(|entry| entry.task).collect();
        admits(&table, self.before.cores)
    }

    // The table with a task at its end.
    fn with(&self, task: Task) -> Vec<Task> {
        let table = self.table().iter().map(|entry| entry.task);
        table.chain([task]).collect()
    }

    fn holds(&self) -> bool {
        self.before.offered.is_some()
    }

    // A task is held, and no fault is its own.
    fn holds_well(&self) -> bool {
        let mut faults = self.faults.iter();
        self.holds() && !faults.any(|fault| OF_THE_OFFER.contains(&fault.clause))
    }

    // The task that an offer names.
    fn offer(&self) -> Option<Task> {
        match self.call {
            Call::Offer(task) => Some(task),
            _ => None,
        }
    }

    fn offers_held(&self) -> bool {
        self.holds() && self.offer() == self.before.offered
    }

    fn is_refused_beside_held(&self) -> bool {
        let (Some(task), Some(held)) = (self.offer(), self.before.offered) else {
            return false;
        };
        let mut table = self.with(held);
        table.push(task);
        !admits(&table, self.before.cores)
    }

    // What is wrong with the held task, if nothing else is.
    fn held_fault(&self) -> Option<&'static str> {
        let clause = self.alone()?.clause;
        OF_THE_OFFER.contains(&clause).then_some(clause)
    }

    fn sound_held(&self, so: fn(&Task) -> bool) -> bool {
        self.faults.is_empty() && self.before.offered.is_some_and(|task| so(&task))
    }

    fn held_by_window(&self) -> bool {
        let held = self.before.offered;
        held.is_some_and(|task| window::admits(&self.with(task), self.before.cores))
    }

    // Whether a held task that fits would be admitted with this budget on so many cores
    // more.
    fn admits_held(&self, budget: fn(&Task) -> u32, more: u32) -> bool {
        let cores = self.before.cores + more;
        let other = |task: Task| Task {
            budget: budget(&task),
            ..task
        };
        let held = self.before.offered.map(other);
        held.is_some_and(|task| admits(&self.with(task), cores))
    }

    fn past(&self, so: fn(&Entry) -> bool) -> bool {
        self.before.entries[self.table().len()..].iter().any(so)
    }

    // The call names the first task past the count, whose entry is so.
    fn next_is(&self, so: fn(&Entry) -> bool) -> bool {
        let next = self.before.entries.get(self.table().len());
        let (Call::Release(number, _) | Call::Finish(number)) = self.call else {
            return false;
        };
        number == self.before.count + 1 && next.is_some_and(so)
    }

    // An accepted commit, by the entry that it wrote over and those after it.
    fn committed(&self, so: fn(&Entry, &[Entry]) -> bool) -> bool {
        let past = &self.before.entries[self.table().len()..];
        let split = past.split_first();
        self.is(COMMIT, Answer::Done) && split.is_some_and(|(own, rest)| so(own, rest))
    }
}

// Every event on a machine and its call.
fn events() -> impl Iterator<Item = &'static Event> {
    let lists: [&'static [Event]; 10] = [
        &GAPS, &LIMITS, &JOBS, &RECORDS, &NEEDS, &OFFERS, &COMMITS, &HOLDING, &HELD, &PAST,
    ];
    lists.into_iter().flatten()
}

/// The names of all events that a comparison should meet, with those of a slot's cores.
pub fn names() -> impl Iterator<Item = &'static str> {
    let of_slots = assignment::EVENTS.iter().map(|(name, _)| *name);
    events().map(|(name, _)| *name).chain(of_slots)
}
