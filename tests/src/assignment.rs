//! What the accepted slots of a comparison should meet about cores (document 02,
//! change 4): who keeps a core and who takes one, in which precedence, and slots in
//! which another rule would give other cores.

use std::collections::BTreeSet;

use crate::machine::{Machine, Slot};
use crate::script::{Answer, Call, Script, carry_out};

/// One accepted slot.
pub struct Assignment {
    m: u32,
    k: u32,
    // In precedence.
    runners: Vec<Runner>,
    // Cores recorded before the slot of tasks that do not run in it.
    idle: BTreeSet<u32>,
}

struct Runner {
    // The task's place in the table, from 0.
    index: usize,
    // The core recorded before the slot, and the one in it.
    before: u32,
    core: u32,
    // Released since the slot before: its gap is the whole period.
    is_new: bool,
}

/// An event, and whether a slot is one.
pub type Event = (&'static str, fn(&Assignment) -> bool);

/// Every event that a comparison should meet.
pub const EVENTS: [Event; 18] = [
    (
        "a keeper first in precedence, before one that takes",
        |slot| slot.keeps_at(0) == Some(true) && slot.takers().count() > 0,
    ),
    (
        "a keeper second in precedence, after one that takes",
        |slot| slot.keeps_at(0) == Some(false) && slot.keeps_at(1) == Some(true),
    ),
    (
        "a keeper third in precedence, after two that take",
        |slot| {
            [0, 1, 2].map(|place| slot.keeps_at(place)) == [Some(false), Some(false), Some(true)]
        },
    ),
    ("two that keep a core and two that take one", |slot| {
        slot.keepers().count() >= 2 && slot.takers().count() >= 2
    }),
    ("two or more that all keep their cores", |slot| {
        slot.keepers().count() >= 2 && slot.takers().count() == 0
    }),
    ("a new job on the core that its task keeps", |slot| {
        slot.keepers().any(|runner| runner.is_new)
    }),
    ("a runner whose core is above k", |slot| {
        slot.runners.iter().any(|runner| runner.before > slot.k)
    }),
    ("a runner whose core is k + 1, beside a keeper", |slot| {
        let next = |runner: &Runner| runner.before == slot.k + 1;
        slot.runners.iter().any(next) && slot.keepers().count() > 0
    }),
    ("a keeper of core k", |slot| {
        slot.keepers().any(|runner| runner.core == slot.k)
    }),
    ("a keeper of core 16", |slot| {
        slot.keepers().any(|runner| runner.core == 16)
    }),
    ("a keeper of a core above the number of runners", |slot| {
        let runners = slot.runners.len();
        slot.keepers()
            .any(|runner| usize::try_from(runner.core).is_ok_and(|core| core > runners))
    }),
    ("a core above m, taken", |slot| {
        slot.takers().any(|runner| runner.core > slot.m)
    }),
    ("a core above m, kept", |slot| {
        slot.keepers().any(|runner| runner.core > slot.m)
    }),
    ("the core of a task that does not run, taken", |slot| {
        slot.takers().any(|runner| slot.idle.contains(&runner.core))
    }),
    (
        "the core of a task that does not run, left unused",
        |slot| {
            let used: BTreeSet<u32> = slot.runners.iter().map(|runner| runner.core).collect();
            slot.idle
                .iter()
                .any(|core| *core <= slot.k && !used.contains(core))
        },
    ),
    ("nobody runs, and cores were recorded", |slot| {
        slot.runners.is_empty() && !slot.idle.is_empty()
    }),
    (
        "cores that one pass over the runners would change",
        |slot| slot.differs(&slot.by_one_pass()),
    ),
    (
        "cores that the number in place of precedence would change",
        |slot| slot.differs(&slot.by_number()),
    ),
];

impl Assignment {
    /// From the machine before an accepted slot of k cores, and the slot.
    pub fn new(before: &Machine, k: u32, slot: &Slot) -> Assignment {
        let order = before.pick(k);
        let runner = |index: &usize| Runner {
            index: *index,
            before: before.jobs[*index].core,
            core: slot.assigned[*index],
            is_new: before.jobs[*index].gap == before.table[*index].period,
        };
        let others = before.jobs.iter().enumerate();
        let others = others.filter(|(index, job)| job.core > 0 && !order.contains(index));
        Assignment {
            m: before.cores,
            k,
            runners: order.iter().map(runner).collect(),
            idle: others.map(|(_, job)| job.core).collect(),
        }
    }

    /// The names of the events that this slot is.
    pub fn met(&self) -> impl Iterator<Item = &'static str> {
        let events = EVENTS.iter().filter(|(_, happens)| happens(self));
        events.map(|(name, _)| *name)
    }

    fn keeps(&self, runner: &Runner) -> bool {
        (1..=self.k).contains(&runner.before)
    }

    // Whether the runner with this place in precedence, from 0, keeps its core.
    fn keeps_at(&self, place: usize) -> Option<bool> {
        self.runners.get(place).map(|runner| self.keeps(runner))
    }

    fn keepers(&self) -> impl Iterator<Item = &Runner> {
        self.runners.iter().filter(|runner| self.keeps(runner))
    }

    fn takers(&self) -> impl Iterator<Item = &Runner> {
        self.runners.iter().filter(|runner| !self.keeps(runner))
    }

    // Whether these cores, in precedence, are not those of the slot.
    fn differs(&self, cores: &[u32]) -> bool {
        self.runners
            .iter()
            .map(|runner| runner.core)
            .ne(cores.iter().copied())
    }

    // Each runner in turn keeps its core if nobody before it took it, or takes the
    // first that nobody has.
    fn by_one_pass(&self) -> Vec<u32> {
        let mut cores = Vec::new();
        for runner in &self.runners {
            let free = |core: &u32| !cores.contains(core);
            let kept = Some(runner.before).filter(|core| self.keeps(runner) && free(core));
            let core = kept.or_else(|| (1..=self.k).find(free));
            cores.push(core.expect("no more runners than cores"));
        }
        cores
    }

    // The same keepers; the others go by their number and not by precedence.
    fn by_number(&self) -> Vec<u32> {
        let mut taken: Vec<u32> = self.takers().map(|runner| runner.core).collect();
        let mut numbers: Vec<usize> = self.takers().map(|runner| runner.index).collect();
        taken.sort_unstable();
        numbers.sort_unstable();
        let core = |runner: &Runner| match numbers.iter().position(|index| *index == runner.index) {
            Some(place) => taken[place],
            None => runner.core,
        };
        self.runners.iter().map(core).collect()
    }
}

/// The events of a script's accepted slots, one name for each time.
pub fn met(script: &Script) -> Vec<&'static str> {
    let mut names = Vec::new();
    let Ok(mut machine) = script.start() else {
        return names;
    };
    let calls = script.calls.iter();
    for call in calls.take_while(|call| !matches!(call, Call::Bad(_))) {
        let before = matches!(call, Call::Slot(_)).then(|| machine.clone());
        let answer = carry_out(&mut machine, *call);
        if let (Some(before), Call::Slot(k), Answer::Ran(slot)) = (before, call, answer) {
            names.extend(Assignment::new(&before, *k, &slot).met());
        }
    }
    names
}
