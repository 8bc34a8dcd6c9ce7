//! The experiment of document 000, section 3: every task set of n tasks whose
//! periods are 2 to 13 and whose execution times are 1 to (period − 1), with
//! deadlines equal to periods. A task set is a multiset. A test instance is a
//! task set and a number of processors, 2 to n − 1, that its utilization does
//! not exceed.

use std::ops::RangeInclusive;

use crate::tasks::Task;

/// The periods of the experiment.
pub const PERIODS: RangeInclusive<u32> = 2..=13;

// The utilization of one core. Every period divides this number.
const WHOLE: u32 = 360_360;

/// All tasks of the experiment: 78.
pub fn tasks() -> Vec<Task> {
    let shapes = PERIODS.flat_map(|period| (1..period).map(move |budget| (period, budget)));
    shapes
        .map(|(period, budget)| Task::new(period, budget, period))
        .collect()
}

/// Visits every multiset of so many of the tasks, each as places in their list.
pub fn for_each_set(size: usize, visit: &mut dyn FnMut(&[usize])) {
    extend(&mut Vec::new(), size, tasks().len(), visit);
}

/// The number of pairs of tasks that a multiset can begin with.
pub const PAIRS: u64 = 78 * 79 / 2;

/// Visits every multiset of so many tasks that begins with this pair, from 0. Neighbours
/// begin with tasks far apart, so that parts of all pairs have about as many multisets.
pub fn for_each_set_of_pair(size: usize, pair: u64, visit: &mut dyn FnMut(&[usize])) {
    let tasks = tasks().len();
    let mut all = (0..tasks).flat_map(|first| (first..tasks).map(move |second| [first, second]));
    // The factor is prime and no divisor of the number of pairs: each comes once.
    let place = usize::try_from(pair * 1_543 % PAIRS).expect("a place of the list");
    let pair = all.nth(place).expect("a pair");
    extend(&mut pair.to_vec(), size, tasks, visit);
}

fn extend(set: &mut Vec<usize>, size: usize, tasks: usize, visit: &mut dyn FnMut(&[usize])) {
    if set.len() == size {
        return visit(set);
    }
    for place in set.last().copied().unwrap_or(0)..tasks {
        set.push(place);
        extend(set, size, tasks, visit);
        set.pop();
    }
}

/// The numbers of cores on which a task set is a test instance.
pub fn cores(set: &[usize], tasks: &[Task]) -> RangeInclusive<u32> {
    let utilization: u32 = set.iter().map(|place| utilization(&tasks[*place])).sum();
    let fewer = u32::try_from(set.len() - 1).expect("a few tasks");
    utilization.div_ceil(WHOLE).max(2)..=fewer
}

/// Task sets of this size whose utilization does not exceed so many cores,
/// counted without visiting each: the last task is found by halving.
pub fn sets_within(size: usize, cores: u32) -> u64 {
    let mut utilizations: Vec<u32> = tasks().iter().map(utilization).collect();
    utilizations.sort_unstable();
    sets_of(size, cores * WHOLE, &utilizations)
}

fn sets_of(size: usize, room: u32, rising: &[u32]) -> u64 {
    if size == 1 {
        let fitting = rising.partition_point(|utilization| *utilization <= room);
        return u64::try_from(fitting).expect("a count of 64 bits");
    }
    let first = |(place, utilization): (usize, &u32)| {
        let rest = room.checked_sub(*utilization)?;
        Some(sets_of(size - 1, rest, &rising[place..]))
    };
    rising.iter().enumerate().map_while(first).sum()
}

// C / T of a whole core.
fn utilization(task: &Task) -> u32 {
    WHOLE / task.period * task.budget
}

/// The window test for tasks of the experiment, by counting slots.
pub struct Counter {
    spares: Vec<u32>,
    // For each task k and each task i: min(I_i(D_k), A_k).
    parts: Vec<Vec<u32>>,
}

impl Counter {
    pub fn new(tasks: &[Task]) -> Counter {
        let spare = |task: &Task| task.deadline - task.budget;
        let row = |k: &Task| {
            let parts = tasks
                .iter()
                .map(|i| busy_slots(i, k.deadline).min(spare(k)));
            parts.collect()
        };
        Counter {
            spares: tasks.iter().map(spare).collect(),
            parts: tasks.iter().map(row).collect(),
        }
    }

    /// Whether at most m tasks have a sum of at least m times their spare.
    pub fn admits(&self, set: &[usize], cores: u32) -> bool {
        let urgent = set
            .iter()
            .filter(|k| self.sum(set, **k) >= cores * self.spares[**k]);
        urgent.count() <= usize::try_from(cores).expect("a few cores")
    }

    // Over the whole set, less the part of one task k in its own sum.
    fn sum(&self, set: &[usize], k: usize) -> u32 {
        let row = &self.parts[k];
        set.iter().map(|i| row[*i]).sum::<u32>() - row[k]
    }
}

/// The slots of a window in which a task runs that is released at the window's
/// start and then once a period, and runs at once.
pub fn busy_slots(task: &Task, window: u32) -> u32 {
    let busy = (0..window).filter(|slot| slot % task.period < task.budget);
    busy.map(|_| 1).sum()
}
