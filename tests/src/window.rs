//! Admission: document 01, "The window test", with the refusals of judging a
//! given table.

use crate::tasks::{MOST_CORES, MOST_TASKS, Refusal, Task};

/// COUNT, and whether the table is admitted.
#[derive(Clone, Copy, Debug, PartialEq, Eq)]
pub struct Verdict {
    pub count: u32,
    pub admitted: bool,
}

/// The verdict on a given table.
pub fn judge(table: &[Task], cores: u32) -> Result<Verdict, Refusal> {
    check(table, cores)?;
    let count = count(table, cores);
    let admitted = count <= cores;
    Ok(Verdict { count, admitted })
}

/// The refusals of judging: 3, 6, then 5 task by task, then 7.
pub fn check(table: &[Task], cores: u32) -> Result<(), Refusal> {
    if table.len() > MOST_TASKS {
        return Err(Refusal::at(3, MOST_TASKS + 1));
    }
    if table.is_empty() {
        return Err(Refusal::whole(6));
    }
    if let Some(index) = table.iter().position(|task| !task.fits()) {
        return Err(Refusal::at(5, index + 1));
    }
    if !(1..=MOST_CORES).contains(&cores) {
        return Err(Refusal::whole(7));
    }
    Ok(())
}

/// Whether a table is admitted. A refused one is not.
pub fn admits(table: &[Task], cores: u32) -> bool {
    judge(table, cores).is_ok_and(|verdict| verdict.admitted)
}

/// COUNT: the number of tasks that may turn urgent.
pub fn count(table: &[Task], cores: u32) -> u32 {
    let urgent = (0..table.len()).filter(|k| may_turn_urgent(table, *k, cores));
    urgent.map(|_| 1).sum()
}

/// Whether the sum of task k (here from 0) is at least m times its spare.
pub fn may_turn_urgent(table: &[Task], k: usize, cores: u32) -> bool {
    sum(table, k) >= u64::from(cores) * spare(&table[k])
}

/// The total, over every task other than k, of min(I_i(D_k), A_k).
pub fn sum(table: &[Task], k: usize) -> u64 {
    let window = u64::from(table[k].deadline);
    let others = table.iter().enumerate().filter(|(i, _)| *i != k);
    others
        .map(|(_, task)| interference(task, window).min(spare(&table[k])))
        .sum()
}

/// A_k = D_k − C_k.
pub fn spare(task: &Task) -> u64 {
    u64::from(task.deadline - task.budget)
}

/// I_i(L) = q·C_i + min(C_i, L − q·T_i), where q is L divided by T_i, rounded down.
pub fn interference(task: &Task, window: u64) -> u64 {
    let (period, budget) = (u64::from(task.period), u64::from(task.budget));
    let whole_periods = window / period;
    whole_periods * budget + budget.min(window - whole_periods * period)
}
