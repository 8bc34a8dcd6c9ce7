//! Small ranges, and every table within them: what the answers of document 02, change 9,
//! mean, with no thought of corners.

use crate::any_ranges::near_edge;
use crate::quotes::{Answer, cheap, dear, most_cores};
use crate::random::Random;
use crate::ranges::RangedTask;
use crate::tasks::Task;
use crate::window;

/// No small ranges have more tables within.
pub const MOST_CHOICES: usize = 2_000;

/// Valid ranges of 1 to 4 tasks with small numbers: some of one value each, some with a
/// corner near the boundary of the window test.
pub fn small_ranges(random: &mut Random) -> Vec<RangedTask> {
    let longest = random.pick(&[2, 3, 4, 5, 6, 8, 12]);
    let tasks = random.pick(&[1, 2, 2, 3, 3, 3, 4, 4]);
    let mut ranges: Vec<RangedTask> = (0..tasks).map(|_| ranged(random, longest)).collect();
    narrow(random, &mut ranges);
    match random.below(8) {
        0 => ranges
            .iter()
            .map(|range| one_value(random, range))
            .collect(),
        1..=3 => {
            let cores = random.between(1, most_cores(&ranges).max(2) - 1);
            near_edge(random, &cheap(&ranges), &dear(&ranges), cores)
        }
        _ => ranges,
    }
}

fn ranged(random: &mut Random, longest: u32) -> RangedTask {
    let any = random.between(1, longest);
    let deadline = random.pick(&[1, longest, any, any, any]);
    let [least_period, most_period] = two_between(random, deadline, longest);
    let [least_budget, most_budget] = two_between(random, 1, deadline);
    let least_budget = random.pick(&[1, least_budget]);
    RangedTask::new([
        least_period,
        most_period,
        least_budget,
        most_budget,
        deadline,
    ])
}

// Fewer tables within: at most so many, and sometimes of one period or of one budget for
// each task.
fn narrow(random: &mut Random, ranges: &mut [RangedTask]) {
    let kind = random.below(6);
    for k in 0..ranges.len() {
        if choices(ranges) > MOST_CHOICES {
            ranges[k] = one_value(random, &ranges[k]);
        }
        match kind {
            0 => ranges[k].most_period = ranges[k].least_period,
            1 => ranges[k].most_budget = ranges[k].least_budget,
            2 => ranges[k] = a_part(random, &ranges[k]),
            _ => {}
        }
    }
}

// Two numbers in this range, in order.
fn two_between(random: &mut Random, low: u32, high: u32) -> [u32; 2] {
    let mut numbers = [low, high].map(|_| random.between(low, high));
    numbers.sort_unstable();
    numbers
}

// The same period or the same budget in all tables.
fn a_part(random: &mut Random, range: &RangedTask) -> RangedTask {
    let task = within(random, range);
    let mut part = *range;
    if random.one_in(2) {
        (part.least_period, part.most_period) = (task.period, task.period);
    } else {
        (part.least_budget, part.most_budget) = (task.budget, task.budget);
    }
    part
}

fn one_value(random: &mut Random, range: &RangedTask) -> RangedTask {
    let task = within(random, range);
    RangedTask::between(&task, &task)
}

/// A task within: each of its two numbers at an end of its range, or any.
pub fn within(random: &mut Random, range: &RangedTask) -> Task {
    let mut number = |least, most| {
        let any = random.between(least, most);
        random.pick(&[least, most, any, any])
    };
    let period = number(range.least_period, range.most_period);
    let budget = number(range.least_budget, range.most_budget);
    Task::new(period, budget, range.deadline)
}

/// How many tables are within.
pub fn choices(ranges: &[RangedTask]) -> usize {
    let of_a_task = |range: &RangedTask| {
        let periods = range.most_period - range.least_period + 1;
        let budgets = range.most_budget - range.least_budget + 1;
        usize::try_from(periods * budgets).expect("a few choices")
    };
    ranges.iter().map(of_a_task).product()
}

/// Every table within.
pub fn every_choice(ranges: &[RangedTask]) -> Vec<Vec<Task>> {
    let mut tables = vec![Vec::new()];
    for range in ranges {
        let tasks = every_task(range);
        let longer = |table: &Vec<Task>| {
            let table = table.clone();
            tasks
                .clone()
                .into_iter()
                .map(move |task| [&table[..], &[task]].concat())
        };
        tables = tables.iter().flat_map(longer).collect();
    }
    tables
}

fn every_task(range: &RangedTask) -> Vec<Task> {
    let periods = range.least_period..=range.most_period;
    let tasks = periods.flat_map(|period| {
        let budgets = range.least_budget..=range.most_budget;
        budgets.map(move |budget| Task::new(period, budget, range.deadline))
    });
    tasks.collect()
}

/// The meaning: the answer over every table within.
pub fn by_every_choice(ranges: &[RangedTask], cores: u32) -> Answer {
    let tables = every_choice(ranges);
    let admitted = tables.iter().map(|table| window::admits(table, cores));
    Answer::over(&admitted.collect::<Vec<_>>())
}
