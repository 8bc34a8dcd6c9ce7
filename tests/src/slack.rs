//! The slack test: document 02, change 6, "the slack-based test in the spirit of
//! document 002", with the refusals of judging a given table. Slacks start at 0, and
//! a round takes all its sums from the slacks of the round before.

use crate::tasks::{Refusal, Task};
use crate::window::{check, interference, spare};

/// Rounds end after so many, also when a slack still changes.
pub const MOST_ROUNDS: usize = 64;

/// The sums of a round, one for each task, and the slacks that follow from them.
#[derive(Clone, Debug, PartialEq, Eq)]
pub struct Round {
    pub sums: Vec<u64>,
    pub slacks: Vec<u64>,
}

/// The rounds made, the sums of the last one, and whether the table is admitted.
#[derive(Clone, Debug, PartialEq, Eq)]
pub struct Judged {
    pub rounds: u32,
    pub sums: Vec<u64>,
    pub admitted: bool,
}

/// The slack test of a given table. Refusals: those of judging.
pub fn judge(table: &[Task], cores: u32) -> Result<Judged, Refusal> {
    let mut rounds = rounds(table, cores)?;
    let made = u32::try_from(rounds.len()).expect("at most 64 rounds");
    let last = rounds.pop().expect("a first round");
    let reaching = (0..table.len()).filter(|k| reaches(last.sums[*k], &table[*k], cores));
    let count: u32 = reaching.map(|_| 1).sum();
    Ok(Judged {
        rounds: made,
        sums: last.sums,
        admitted: count <= cores,
    })
}

/// Whether a table is admitted. A refused one is not.
pub fn admits(table: &[Task], cores: u32) -> bool {
    judge(table, cores).is_ok_and(|judged| judged.admitted)
}

/// The rounds made. A refused table has 0.
pub fn rounds_made(table: &[Task], cores: u32) -> u32 {
    judge(table, cores).map_or(0, |judged| judged.rounds)
}

/// Every round made, at least one: up to the first that changes no slack, or 64.
pub fn rounds(table: &[Task], cores: u32) -> Result<Vec<Round>, Refusal> {
    check(table, cores)?;
    let mut rounds = Vec::new();
    let mut slacks = vec![0; table.len()];
    while rounds.len() < MOST_ROUNDS {
        let before = slacks;
        let round = round(table, cores, &before);
        slacks = round.slacks.clone();
        rounds.push(round);
        if slacks == before {
            break;
        }
    }
    Ok(rounds)
}

/// One round from the slacks of the round before.
pub fn round(table: &[Task], cores: u32, before: &[u64]) -> Round {
    let sums: Vec<u64> = (0..table.len()).map(|k| sum(table, k, before)).collect();
    let tasks = table.iter().zip(&sums);
    let slacks = tasks.map(|(task, sum)| slack(*sum, task, cores)).collect();
    Round { sums, slacks }
}

// The total, over every task other than k, of min(I_i(max(0, D_k − S_i)), A_k).
fn sum(table: &[Task], k: usize, slacks: &[u64]) -> u64 {
    let (deadline, spare) = (u64::from(table[k].deadline), spare(&table[k]));
    let others = table.iter().zip(slacks).enumerate();
    let others = others.filter(|(i, _)| *i != k);
    others
        .map(|(_, (task, slack))| interference(task, deadline.saturating_sub(*slack)).min(spare))
        .sum()
}

// 0 if the sum is at least m·A_k, else A_k − (sum divided by m, rounded down).
fn slack(sum: u64, task: &Task, cores: u32) -> u64 {
    match reaches(sum, task, cores) {
        true => 0,
        false => spare(task) - sum / u64::from(cores),
    }
}

// Whether a task's sum is at least m·A_k.
fn reaches(sum: u64, task: &Task, cores: u32) -> bool {
    sum >= u64::from(cores) * spare(task)
}
