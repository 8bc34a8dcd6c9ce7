//! What the offers and commits of a script should meet (document 02, changes 6 and 10):
//! tasks that only the slack test admits, and their jobs; what an offer finds held and what
//! is held after it; and what comes between an offer and its commit.

use crate::reading::read;
use crate::script::{Answer, Call, Script};
use crate::slack;
use crate::tasks::Task;
use crate::window;

const ACCEPTED: &str = "an offer that the window test would refuse";
const ACCEPTED_BY_BOTH: &str = "an offer that both tests accept";
const REFUSED: &str = "an offer that both tests refuse";
const FLIPS: &str = "a commit after which the window test refuses the table";
const AFTER: &str = "a commit after one of a task that the window test would refuse";
const RELEASED: &str = "a release of an added task that the window test would refuse";
const FINISHED: &str = "a job finished of an added task that the window test would refuse";
const DISPLACES: &str = "an offer that displaces another task";
const AGAIN: &str = "an offer of the held task";
const BESIDE: &str = "an offer that would be refused beside the held task";
const KEPT_AT_5: &str = "5 for an offer while a task is held";
const KEPT_AT_13: &str = "13 for an offer while a task is held";
const COMMIT_AFTER_5: &str = "a commit after a refused offer of number 5";
const COMMIT_AFTER_13: &str = "a commit after a refused offer of number 13";
const COMMIT_OF_LAST: &str = "a commit after an offer that displaced another task";
const COMMIT_AT_ONCE: &str = "a commit right after its offer";
const PAST_RELEASE: &str = "a commit after an accepted release since its offer";
const PAST_FINISH: &str = "a commit after an accepted finish since its offer";
const PAST_SLOT: &str = "a commit after an accepted slot since its offer";
const PAST_REFUSED: &str = "a commit after a refused release, finish or slot since its offer";
const ACROSS: &str = "a job released before an offer, its slot and its commit, open after them";
const NEXT_NUMBER: &str = "8 for a release of the number that a held task would get";
const OWN_NUMBER: &str = "a release of an added task";
const NONE_YET: &str = "17 before any offer";
const NONE_LEFT: &str = "17 after a commit";
const NONE_HELD: &str = "17 after refused offers alone";

/// The names of all events.
pub const NAMES: [&str; 26] = [
    ACCEPTED,
    ACCEPTED_BY_BOTH,
    REFUSED,
    FLIPS,
    AFTER,
    RELEASED,
    FINISHED,
    DISPLACES,
    AGAIN,
    BESIDE,
    KEPT_AT_5,
    KEPT_AT_13,
    COMMIT_AFTER_5,
    COMMIT_AFTER_13,
    COMMIT_OF_LAST,
    COMMIT_AT_ONCE,
    PAST_RELEASE,
    PAST_FINISH,
    PAST_SLOT,
    PAST_REFUSED,
    ACROSS,
    NEXT_NUMBER,
    OWN_NUMBER,
    NONE_YET,
    NONE_LEFT,
    NONE_HELD,
];

/// The events of a script's calls and their answers, one name for each time.
pub fn met(script: &Script, answers: &[Answer]) -> Vec<&'static str> {
    let table = read(&script.table).unwrap_or_default();
    let mut record = Record {
        cores: script.cores,
        started: table.len(),
        table,
        by_slack: 0,
        open: 0,
        offered: None,
        had: Had::default(),
        names: Vec::new(),
    };
    for (call, answer) in script.calls.iter().zip(answers) {
        match answer {
            Answer::Refused(number) => record.refuse(*call, *number),
            _ => record.accept(*call, answer),
        }
    }
    record.names
}

struct Record {
    cores: u32,
    // How many tasks the table had at the start.
    started: usize,
    table: Vec<Task>,
    // Sets of tasks as the sum of 2 to the power (task number − 1): those that only the
    // slack test admitted, and those whose job is open.
    by_slack: u32,
    open: u32,
    offered: Option<Offered>,
    had: Had,
    names: Vec<&'static str>,
}

// Calls since the start.
#[derive(Default)]
struct Had {
    offer: bool,
    commit: bool,
}

// The held task and what came since its offer.
#[derive(Clone, Copy)]
struct Offered {
    task: Task,
    // Tasks whose job has been open since before the offer, as such a sum.
    open: u32,
    has_displaced: bool,
    calls: u32,
    release: bool,
    finish: bool,
    slot: bool,
    refused: bool,
    refused_by_5: bool,
    refused_by_13: bool,
}

impl Record {
    fn accept(&mut self, call: Call, answer: &Answer) {
        match (call, answer) {
            (Call::Offer(task), _) => self.offer(task),
            (Call::Commit, _) => self.commit(),
            (Call::Release(number, _), _) => self.release(number),
            (Call::Finish(number), _) => self.open &= !(1 << (number - 1)),
            (Call::Slot(_), Answer::Ran(slot)) => {
                self.open &= !(slot.finished | slot.late);
                self.finished(slot.finished);
            }
            _ => {}
        }
        if let Some(offered) = &mut self.offered {
            offered.open &= self.open;
            offered.calls += u32::from(!matches!(call, Call::Offer(_)));
            offered.release |= matches!(call, Call::Release(..));
            offered.finish |= matches!(call, Call::Finish(_));
            offered.slot |= matches!(call, Call::Slot(_));
        }
    }

    fn refuse(&mut self, call: Call, number: u32) {
        match call {
            Call::Offer(_) => self.refuse_offer(number),
            Call::Commit => self.refuse_commit(),
            Call::Release(task, _) => self.refuse_release(task, number),
            _ => {}
        }
        if let Some(offered) = &mut self.offered {
            let is_offer = matches!(call, Call::Offer(_));
            offered.calls += 1;
            offered.refused |= !is_offer;
            offered.refused_by_5 |= is_offer && number == 5;
            offered.refused_by_13 |= is_offer && number == 13;
        }
    }

    // An accepted offer.
    fn offer(&mut self, task: Task) {
        let longer = [self.table.as_slice(), &[task]].concat();
        self.names.push(match window::admits(&longer, self.cores) {
            true => ACCEPTED_BY_BOTH,
            false => ACCEPTED,
        });
        let before = self.offered.map(|offered| offered.task);
        if let Some(before) = before {
            self.names
                .push(if before == task { AGAIN } else { DISPLACES });
            let beside = [self.table.as_slice(), &[before, task]].concat();
            if !slack::admits(&beside, self.cores) {
                self.names.push(BESIDE);
            }
        }
        self.had.offer = true;
        self.offered = Some(Offered::new(task, self.open, before));
    }

    fn refuse_offer(&mut self, number: u32) {
        if number == 13 {
            self.names.push(REFUSED);
        }
        self.had.offer = true;
        match (number, self.offered) {
            (5, Some(_)) => self.names.push(KEPT_AT_5),
            (13, Some(_)) => self.names.push(KEPT_AT_13),
            _ => {}
        }
    }

    // An accepted commit.
    fn commit(&mut self) {
        let Some(offered) = self.offered.take() else {
            return;
        };
        if self.by_slack != 0 {
            self.names.push(AFTER);
        }
        let before = window::admits(&self.table, self.cores);
        self.table.push(offered.task);
        if !window::admits(&self.table, self.cores) {
            self.by_slack |= 1 << (self.table.len() - 1);
            self.names.extend(before.then_some(FLIPS));
        }
        self.had.commit = true;
        self.names.extend(offered.met());
    }

    fn refuse_commit(&mut self) {
        self.names.push(match self.had {
            Had { commit: true, .. } => NONE_LEFT,
            Had { offer: true, .. } => NONE_HELD,
            _ => NONE_YET,
        });
    }

    fn release(&mut self, number: u32) {
        self.open |= 1 << (number - 1);
        if self.by_slack >> (number - 1) & 1 == 1 {
            self.names.push(RELEASED);
        }
        let started = u32::try_from(self.started).expect("at most 32 tasks");
        self.names.extend((number > started).then_some(OWN_NUMBER));
    }

    fn refuse_release(&mut self, number: u32, refusal: u32) {
        let next = u32::try_from(self.table.len() + 1).expect("at most 33");
        if self.offered.is_some() && refusal == 8 && number == next {
            self.names.push(NEXT_NUMBER);
        }
    }

    fn finished(&mut self, finished: u32) {
        let jobs = (finished & self.by_slack).count_ones();
        self.names.extend((0..jobs).map(|_| FINISHED));
    }
}

impl Offered {
    // With the task that was held before.
    fn new(task: Task, open: u32, before: Option<Task>) -> Offered {
        Offered {
            task,
            open,
            has_displaced: before.is_some_and(|before| before != task),
            calls: 0,
            release: false,
            finish: false,
            slot: false,
            refused: false,
            refused_by_5: false,
            refused_by_13: false,
        }
    }

    // What a commit meets.
    fn met(&self) -> impl Iterator<Item = &'static str> {
        let events = [
            (COMMIT_AFTER_5, self.refused_by_5),
            (COMMIT_AFTER_13, self.refused_by_13),
            (COMMIT_OF_LAST, self.has_displaced),
            (COMMIT_AT_ONCE, self.calls == 0),
            (PAST_RELEASE, self.release),
            (PAST_FINISH, self.finish),
            (PAST_SLOT, self.slot),
            (PAST_REFUSED, self.refused),
            (ACROSS, self.slot && self.open != 0),
        ];
        let met = events.into_iter().filter(|(_, is_so)| *is_so);
        met.map(|(name, _)| name)
    }
}
