//! Random valid ranges, most of them near the boundary of the window test (document 02,
//! change 9): one of their corners, or a table within, is one slot of one number away from
//! the other verdict.

use crate::random::Random;
use crate::ranges::RangedTask;
use crate::tasks::{LONGEST_PERIOD, Task};
use crate::{cheaper, quotes, tables, window};

// How far a number goes towards its limit.
#[derive(Clone, Copy)]
enum Width {
    ByOne,
    ByAFew,
    Any,
    ToTheLimit,
    Mixed,
}

const WIDTHS: [Width; 5] = [
    Width::ByOne,
    Width::ByAFew,
    Width::Any,
    Width::ToTheLimit,
    Width::Mixed,
];

/// Valid ranges of 1 to 32 tasks.
pub fn valid(random: &mut Random) -> Vec<RangedTask> {
    let table = match random.below(6) {
        0 => cheaper::table(random),
        1 | 2 => few_tasks(random),
        _ => tables::valid(random),
    };
    around(random, &table)
}

// So few that some are admitted on 1 core, or about as many as there are cores.
fn few_tasks(random: &mut Random) -> Vec<Task> {
    let tasks = random.pick(&[2, 2, 3, 3, 3, 4, 5, 16, 17]);
    let table = tables::of_tasks(random, tasks);
    tables::near_edge(random, table, window::admits)
}

/// Ranges of which a table is one corner, or within: of one value each, small, wide or up to
/// the limits.
pub fn around(random: &mut Random, table: &[Task]) -> Vec<RangedTask> {
    let table = table.to_vec();
    match random.below(9) {
        0 => between(&table, &table),
        1 | 2 => between(&table, &dearer(random, &table)),
        3 | 4 => between(&trimmed(random, &table), &table),
        5 => between(&trimmed(random, &table), &dearer(random, &table)),
        _ => {
            let (cheap, dear) = (trimmed(random, &table), dearer(random, &table));
            let least_cores = (1..quotes::most_cores(&between(&cheap, &dear)))
                .find(|cores| window::admits(&cheap, *cores));
            near_edge(random, &cheap, &dear, least_cores.unwrap_or(1))
        }
    }
}

fn between(cheap: &[Task], dear: &[Task]) -> Vec<RangedTask> {
    let corners = cheap.iter().zip(dear);
    corners
        .map(|(cheap, dear)| RangedTask::between(cheap, dear))
        .collect()
}

// Budgets raised, up to the deadline, and periods lowered, down to it: all of them or some.
fn dearer(random: &mut Random, table: &[Task]) -> Vec<Task> {
    moved(random, table, |task| (task.deadline, task.deadline))
}

// Budgets lowered, down to 1, and periods raised, up to 1,000,000.
fn trimmed(random: &mut Random, table: &[Task]) -> Vec<Task> {
    moved(random, table, |_| (LONGEST_PERIOD, 1))
}

// Towards the period and the budget that are the limits of a task.
fn moved(random: &mut Random, table: &[Task], limits: fn(&Task) -> (u32, u32)) -> Vec<Task> {
    let width = random.pick(&WIDTHS);
    let [period_share, budget_share] = random.pick(&[[1, 1], [2, 2], [1, 9], [9, 1], [4, 4]]);
    let mut table = table.to_vec();
    for task in &mut table {
        let (period, budget) = limits(task);
        if random.one_in(period_share) {
            task.period = towards(random, task.period, period, width);
        }
        if random.one_in(budget_share) {
            task.budget = towards(random, task.budget, budget, width);
        }
    }
    table
}

fn towards(random: &mut Random, from: u32, limit: u32, width: Width) -> u32 {
    let whole = from.abs_diff(limit);
    let part = match width {
        Width::ByOne => 1,
        Width::ByAFew => random.between(1, 3),
        Width::Any => random.between(0, whole),
        Width::ToTheLimit => whole,
        Width::Mixed => {
            let any = random.between(0, whole);
            random.pick(&[0, 1, 2, any, whole])
        }
    };
    let part = part.min(whole);
    if from < limit {
        from + part
    } else {
        from - part
    }
}

/// From the cheap corner to the dear one, one number after the other, until the window test
/// does not admit the table: the ranges on either side of this step, up to it or from it on.
pub fn near_edge(
    random: &mut Random,
    cheap: &[Task],
    dear: &[Task],
    cores: u32,
) -> Vec<RangedTask> {
    if !window::admits(cheap, cores) {
        return between(cheap, dear);
    }
    let numbers = 2 * cheap.len();
    let first = random.below(numbers);
    let mut table = cheap.to_vec();
    for number in (first..numbers).chain(0..first) {
        let before = table.clone();
        set(&mut table, number, value(dear, number));
        if !window::admits(&table, cores) {
            let (last, next) = flip(&before, value(dear, number), number, cores);
            return match random.below(4) {
                0 => between(cheap, &last),
                1 => between(cheap, &next),
                2 => between(&last, dear),
                _ => between(&next, dear),
            };
        }
    }
    between(cheap, dear)
}

// By halving: the last table that is admitted while this number goes to its goal, and the
// next one.
fn flip(table: &[Task], goal: u32, number: usize, cores: u32) -> (Vec<Task>, Vec<Task>) {
    let start = value(table, number);
    let at = |part: u32| {
        let mut table = table.to_vec();
        let value = if start < goal {
            start + part
        } else {
            start - part
        };
        set(&mut table, number, value);
        table
    };
    let (mut low, mut high) = (0, start.abs_diff(goal));
    while high - low > 1 {
        let middle = low + (high - low) / 2;
        match window::admits(&at(middle), cores) {
            true => low = middle,
            false => high = middle,
        }
    }
    (at(low), at(high))
}

// The periods and budgets of a table, numbered task by task.
fn value(table: &[Task], number: usize) -> u32 {
    let task = &table[number / 2];
    match number % 2 {
        0 => task.period,
        _ => task.budget,
    }
}

fn set(table: &mut [Task], number: usize, value: u32) {
    let task = &mut table[number / 2];
    match number % 2 {
        0 => task.period = value,
        _ => task.budget = value,
    }
}
