//! Random valid tables, most of them near the edge of admission: of the window test
//! (document 01) or of the slack test (document 02, change 6).

use crate::random::Random;
use crate::slow;
use crate::tasks::{LONGEST_PERIOD, MOST_CORES, MOST_TASKS, Task};
use crate::{slack, window};

// Steps of the way between two tables. No budget spans more slots than this,
// so one step moves each budget by one at most.
const STEPS: u64 = LONGEST_PERIOD as u64;

/// Whether a test admits a table on so many cores.
pub type Admits = fn(&[Task], u32) -> bool;

/// A valid table of 1 to 32 tasks.
pub fn valid(random: &mut Random) -> Vec<Task> {
    match random.below(16) {
        0 | 1 => level(random),
        2 | 3 => scattered(random),
        4..=6 => near_slack_edge(random),
        7 => slow::table(random),
        _ => {
            let table = scattered(random);
            near_edge(random, table, window::admits)
        }
    }
}

/// A table, most of them of a few tasks, one slot of one budget away from the slack
/// test's other verdict.
pub fn near_slack_edge(random: &mut Random) -> Vec<Task> {
    let most = random.pick(&[5, 5, 5, 5, 7, 7, 10, MOST_TASKS]);
    let tasks = 3 + random.below(most - 2);
    let table = of_tasks(random, tasks);
    near_edge(random, table, slack::admits)
}

/// A valid table of just so many tasks.
pub fn of_tasks(random: &mut Random, tasks: usize) -> Vec<Task> {
    let longest = random.pick(&[2, 5, 12, 100, 5_000, LONGEST_PERIOD, LONGEST_PERIOD]);
    (0..tasks).map(|_| task(random, longest)).collect()
}

// Tasks with no thought for the verdict.
fn scattered(random: &mut Random) -> Vec<Task> {
    let most = random.pick(&[3, 8, 17, MOST_TASKS]);
    let tasks = 1 + random.below(most);
    of_tasks(random, tasks)
}

fn task(random: &mut Random, longest: u32) -> Task {
    let period = match random.below(8) {
        0 => longest,
        _ => random.between(1, longest),
    };
    let deadline = match random.below(4) {
        0 => period,
        1 => random.between(1, period),
        _ => random.between(period.div_ceil(2), period),
    };
    let budget = match random.below(8) {
        0 => deadline,
        1 => 1,
        2 | 3 => random.between(1, deadline),
        _ => random.between(1, deadline.div_ceil(3)),
    };
    Task::new(period, budget, deadline)
}

// Equal tasks whose interference fills every spare: on one core fewer than
// tasks, each sum is just m times the spare. Sometimes one budget moves by one.
fn level(random: &mut Random) -> Vec<Task> {
    let period = random.pick(&[4, 9, 100, LONGEST_PERIOD]);
    let budget = random.between(period.div_ceil(2), period - 1);
    let mut table = vec![Task::new(period, budget, period); 2 + random.below(16)];
    let moved = random.below(table.len());
    table[moved].budget = budget - 1 + random.between(0, 2);
    table
}

/// A table one slot of one budget away from the other verdict on some m. As many
/// cores as tasks always admit, so m stays below.
pub fn near_edge(random: &mut Random, table: Vec<Task>, admitted: Admits) -> Vec<Task> {
    let fewer = u32::try_from(table.len() - 1).expect("at most 32 tasks");
    let cores = random.between(1, fewer.clamp(1, MOST_CORES));
    let (lighter, heavier) = if admitted(&table, cores) {
        (table.clone(), with_budgets(&table, |task| task.deadline))
    } else {
        (with_budgets(&table, |_| 1), table.clone())
    };
    if admitted(&lighter, cores) == admitted(&heavier, cores) {
        return table;
    }
    let step = last_admitted_step(&lighter, &heavier, cores, admitted);
    let lighter_side = part_way(&lighter, &heavier, step);
    let heavier_side = part_way(&lighter, &heavier, step + 1);
    let (before, after) = flip(lighter_side, &heavier_side, cores, admitted);
    if random.one_in(2) { before } else { after }
}

// Halves the way between an admitted and a refused table down to one step.
fn last_admitted_step(lighter: &[Task], heavier: &[Task], cores: u32, admitted: Admits) -> u64 {
    let (mut low, mut high) = (0, STEPS);
    while high - low > 1 {
        let middle = low + (high - low) / 2;
        if admitted(&part_way(lighter, heavier, middle), cores) {
            low = middle;
        } else {
            high = middle;
        }
    }
    low
}

// Moves one budget after the other by one slot until the verdict flips: the
// tables just before and just after.
fn flip(
    mut table: Vec<Task>,
    goal: &[Task],
    cores: u32,
    admitted: Admits,
) -> (Vec<Task>, Vec<Task>) {
    let mut before = table.clone();
    for k in 0..table.len() {
        before.clone_from(&table);
        table[k].budget = goal[k].budget;
        if !admitted(&table, cores) {
            break;
        }
    }
    (before, table)
}

fn part_way(lighter: &[Task], heavier: &[Task], step: u64) -> Vec<Task> {
    let mut table = lighter.to_vec();
    for (task, goal) in table.iter_mut().zip(heavier) {
        let whole = u64::from(goal.budget - task.budget);
        let part = whole * step / STEPS;
        task.budget += u32::try_from(part).expect("no more than a budget");
    }
    table
}

fn with_budgets(table: &[Task], budget: fn(&Task) -> u32) -> Vec<Task> {
    let mut table = table.to_vec();
    for task in &mut table {
        task.budget = budget(task);
    }
    table
}
