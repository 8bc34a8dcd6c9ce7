//! The cores of a replayed script (document 02, change 4), read from the calls and
//! the printed answers alone: in each accepted slot every runner has a core among 1
//! to k and no two have the same; a runner of the accepted slot before keeps its core
//! if it is among 1 to k; and the others have the first of those that nobody keeps.

use std::collections::{BTreeMap, BTreeSet};

use crate::script::{Call, Script};

/// How many runners kept their core, how many had one above k, and how many came
/// back after a slot without them to another core than their last one.
#[derive(Clone, Copy, Debug, Default, PartialEq, Eq)]
pub struct Assigned {
    pub kept: u64,
    pub above_k: u64,
    pub back_on_another: u64,
}

/// The rules on a script and what was printed for it, admitted or not.
pub fn check(script: &Script, printed: &str) -> Result<Assigned, String> {
    let mut record = Record::default();
    let answers = script.calls.iter().zip(printed.lines());
    for (place, (call, answer)) in (1..).zip(answers) {
        let refused = answer.starts_with("REFUSED ");
        if let (Call::Slot(k), false) = (call, refused) {
            let fault = record.slot(*k, answer);
            fault.map_err(|fault| format!("call {place}: {fault}"))?;
        }
    }
    Ok(record.assigned)
}

// Cores by task number.
type Cores = BTreeMap<u32, u32>;

#[derive(Default)]
struct Record {
    // Of the last accepted slot.
    before: Cores,
    // Of the last slot in which each task ran.
    last: Cores,
    assigned: Assigned,
}

impl Record {
    fn slot(&mut self, k: u32, answer: &str) -> Result<(), String> {
        let cores = cores(answer)?;
        let mut used = BTreeSet::new();
        for (task, core) in &cores {
            if !(1..=k).contains(core) {
                return Err(format!("task {task} has core {core} of {k}"));
            }
            if !used.insert(*core) {
                return Err(format!("core {core} twice"));
            }
        }
        self.check_kept(k, &cores)?;
        self.count(k, &cores);
        self.last.extend(&cores);
        self.before = cores;
        Ok(())
    }

    // The core of the slot before, if it is among 1 to k.
    fn kept(&self, k: u32, task: u32) -> Option<u32> {
        self.before.get(&task).copied().filter(|core| *core <= k)
    }

    // Keepers keep theirs, and the others have the first that nobody keeps.
    fn check_kept(&self, k: u32, cores: &Cores) -> Result<(), String> {
        let mut kept = BTreeSet::new();
        let mut taken = BTreeSet::new();
        for (task, core) in cores {
            match self.kept(k, *task) {
                Some(before) if before != *core => {
                    return Err(format!("task {task} leaves core {before}"));
                }
                Some(_) => kept.insert(*core),
                None => taken.insert(*core),
            };
        }
        let unused = (1..=k).filter(|core| !kept.contains(core));
        let first: BTreeSet<u32> = unused.take(taken.len()).collect();
        match taken == first {
            true => Ok(()),
            false => Err(format!("cores {taken:?} are taken and not {first:?}")),
        }
    }

    fn count(&mut self, k: u32, cores: &Cores) {
        for (task, core) in cores {
            let before = self.before.get(task);
            let back = before.is_none() && self.last.get(task).is_some_and(|last| last != core);
            self.assigned.kept += u64::from(self.kept(k, *task).is_some());
            self.assigned.above_k += u64::from(before.is_some_and(|core| *core > k));
            self.assigned.back_on_another += u64::from(back);
        }
    }
}

// The cores of a printed slot: one for each runner, in rising task number.
fn cores(answer: &str) -> Result<Cores, String> {
    let fields: Result<Vec<u32>, _> = answer.split(' ').map(str::parse).collect();
    let Ok(&[ran, _, _, runners, ref cores @ ..]) = fields.as_deref() else {
        return Err(format!("no answer of a slot: {answer}"));
    };
    let tasks = (1..=32).filter(|number| ran >> (number - 1) & 1 == 1);
    let told = u32::try_from(cores.len()).expect("a line of cores");
    let ran = ran.count_ones();
    if ran != runners || told != runners {
        return Err(format!("{runners} runners, {ran} tasks, {told} cores"));
    }
    Ok(tasks.zip(cores.iter().copied()).collect())
}
