//! The slack test for tasks of document 000's experiment, by another way than round
//! by round: single slacks are raised, in any order, until none can be. Slacks only
//! grow, so both ways end with the same ones where the rounds end by themselves, and a
//! sum reaches m times the spare just where the slack is 0.

use crate::experiment::busy_slots;
use crate::tasks::Task;

/// By places in the experiment's list of tasks.
pub struct SlackCounter {
    spares: Vec<u32>,
    // For each task k, each task i and each slack s up to D_k: min(I_i(D_k − s), A_k).
    parts: Vec<Vec<Vec<u32>>>,
}

impl SlackCounter {
    pub fn new(tasks: &[Task]) -> SlackCounter {
        let spare = |task: &Task| task.deadline - task.budget;
        let part = |k: &Task, i: &Task| {
            let windows = (0..=k.deadline).rev();
            let slots = windows.map(|window| busy_slots(i, window).min(spare(k)));
            slots.collect()
        };
        let row = |k: &Task| tasks.iter().map(|i| part(k, i)).collect();
        SlackCounter {
            spares: tasks.iter().map(spare).collect(),
            parts: tasks.iter().map(row).collect(),
        }
    }

    /// Whether at most m slacks stay 0.
    pub fn admits(&self, set: &[usize], cores: u32) -> bool {
        let mut slacks = vec![0; set.len()];
        while let Some(k) =
            (0..set.len()).find(|k| self.slack(set, *k, cores, &slacks) > slacks[*k])
        {
            slacks[k] = self.slack(set, k, cores, &slacks);
        }
        let urgent = slacks.iter().filter(|slack| **slack == 0);
        urgent.count() <= usize::try_from(cores).expect("a few cores")
    }

    // A_k less the whole m-th part of the sum, and never below 0.
    fn slack(&self, set: &[usize], k: usize, cores: u32, slacks: &[u32]) -> u32 {
        let row = &self.parts[set[k]];
        let others = (0..set.len()).filter(|i| *i != k);
        let sum: u32 = others.map(|i| at(&row[set[i]], slacks[i])).sum();
        self.spares[set[k]].saturating_sub(sum / cores)
    }
}

// A slack above the deadline leaves no window, and so no part.
fn at(parts: &[u32], slack: u32) -> u32 {
    let place = usize::try_from(slack).expect("a slack of 32 bits");
    parts.get(place).copied().unwrap_or(0)
}
