//! Steps that make a table cheaper (document 02, change 8), one or several after each other,
//! the steps of which change 8 says nothing, and tables near the boundaries of both tests.

use crate::found::FOUND;
use crate::random::Random;
use crate::tables::{Admits, near_edge, near_slack_edge, of_tasks, valid};
use crate::tasks::{LONGEST_PERIOD, MOST_CORES, MOST_TASKS, Task};
use crate::{extremes, slack, slow, window};

use Step::{
    BudgetLowered, BudgetLoweredByOne, BudgetRaised, CoreFewer, CoreMore, DeadlineLowered,
    DeadlineRaised, PeriodLowered, PeriodRaised, PeriodRaisedByOne, Several, TaskAdded,
    TaskRemoved,
};

/// A step from a table on some number of cores to another.
#[derive(Clone, Copy, Debug, PartialEq, Eq)]
pub enum Step {
    CoreMore,
    BudgetLoweredByOne,
    /// To any value down to 1.
    BudgetLowered,
    PeriodRaisedByOne,
    /// To any value up to 1,000,000.
    PeriodRaised,
    /// Those after it move up.
    TaskRemoved,
    /// Cheaper steps one after the other, of any of the tasks.
    Several,
    CoreFewer,
    BudgetRaised,
    PeriodLowered,
    TaskAdded,
    DeadlineRaised,
    DeadlineLowered,
}

/// The single steps that make a table cheaper.
pub const SINGLE: [Step; 6] = [
    CoreMore,
    BudgetLoweredByOne,
    BudgetLowered,
    PeriodRaisedByOne,
    PeriodRaised,
    TaskRemoved,
];

/// The opposite steps, and those of a deadline, "not included, since a longer one also
/// widens the window": each loses some admissions.
pub const OTHERS: [Step; 6] = [
    CoreFewer,
    BudgetRaised,
    PeriodLowered,
    TaskAdded,
    DeadlineRaised,
    DeadlineLowered,
];

/// The table after a step, and by how many its cores are more than before; below 0 fewer.
#[derive(Clone, Debug, PartialEq, Eq)]
pub struct Changed {
    pub table: Vec<Task>,
    pub cores: i32,
}

impl Changed {
    /// What was answered on m cores, and what is after the step, for each m for which both
    /// are given. Answers stand in the order of m, from 1.
    pub fn beside<'a, T: Copy>(
        &self,
        before: &'a [T],
        after: &'a [T],
    ) -> impl Iterator<Item = (u32, T, T)> + use<'a, T> {
        let cores = self.cores;
        let answers = (1..=MOST_CORES).zip(before);
        answers.filter_map(move |(m, answer)| {
            let place = m.checked_add_signed(cores)?.checked_sub(1)?;
            let other = after.get(usize::try_from(place).ok()?)?;
            Some((m, *answer, *other))
        })
    }

    /// Whether this is a cheaper table than the one before: the same tasks or fewer, in
    /// their order, each of the same deadline, with a budget no larger and a period no
    /// smaller, on as many cores or more.
    pub fn is_cheaper_than(&self, before: &[Task]) -> bool {
        let mut rest = before.iter();
        let mut tasks = self.table.iter();
        self.cores >= 0 && tasks.all(|task| rest.any(|former| is_cheaper_task(task, former)))
    }
}

fn is_cheaper_task(task: &Task, former: &Task) -> bool {
    task.deadline == former.deadline && task.budget <= former.budget && task.period >= former.period
}

impl Step {
    /// The name under which a step is counted.
    pub fn name(self) -> &'static str {
        match self {
            CoreMore => "one core more",
            BudgetLoweredByOne => "a budget lowered by one",
            BudgetLowered => "a budget lowered",
            PeriodRaisedByOne => "a period raised by one",
            PeriodRaised => "a period raised",
            TaskRemoved => "a task removed",
            Several => "several steps",
            CoreFewer => "one core fewer",
            BudgetRaised => "a budget raised",
            PeriodLowered => "a period lowered",
            TaskAdded => "a task added",
            DeadlineRaised => "a deadline raised",
            DeadlineLowered => "a deadline lowered",
        }
    }

    /// A table after this step, if it can be taken: the table fits, and has 1 to 32 tasks.
    pub fn take(self, random: &mut Random, table: &[Task]) -> Option<Changed> {
        let on_cores = |cores| {
            let table = table.to_vec();
            Some(Changed { table, cores })
        };
        match self {
            CoreMore => on_cores(1),
            CoreFewer => on_cores(-1),
            Several => several(random, table),
            TaskRemoved => removed(random, table),
            TaskAdded => added(random, table),
            _ => self.of_a_task(random, table),
        }
    }

    // Any task that can take the step takes it.
    fn of_a_task(self, random: &mut Random, table: &[Task]) -> Option<Changed> {
        let first = random.below(table.len());
        let mut places = (first..table.len()).chain(0..first);
        let (place, task) = places.find_map(|place| {
            let task = self.of_task(random, table[place])?;
            Some((place, task))
        })?;
        let mut table = table.to_vec();
        table[place] = task;
        Some(Changed { table, cores: 0 })
    }

    fn of_task(self, random: &mut Random, task: Task) -> Option<Task> {
        let Task {
            period,
            budget,
            deadline,
        } = task;
        let [period, budget, deadline] = match self {
            BudgetLoweredByOne if budget > 1 => [period, budget - 1, deadline],
            BudgetLowered if budget > 1 => [period, lower(random, budget, 1), deadline],
            PeriodRaisedByOne if period < LONGEST_PERIOD => [period + 1, budget, deadline],
            PeriodRaised if period < LONGEST_PERIOD => {
                [higher(random, period, LONGEST_PERIOD), budget, deadline]
            }
            BudgetRaised if budget < deadline => {
                [period, higher(random, budget, deadline), deadline]
            }
            PeriodLowered if period > deadline => {
                [lower(random, period, deadline), budget, deadline]
            }
            // Of a task without spare it could lose nothing.
            DeadlineRaised if budget < deadline && deadline < period => {
                let any = higher(random, deadline, period);
                [period, budget, random.pick(&[deadline + 1, any])]
            }
            DeadlineLowered if deadline > budget => {
                [period, budget, lower(random, deadline, budget)]
            }
            _ => return None,
        };
        Some(Task::new(period, budget, deadline))
    }
}

// A number below this one, at least the least: either of the ends, or any.
fn lower(random: &mut Random, number: u32, least: u32) -> u32 {
    let any = random.between(least, number - 1);
    random.pick(&[least, number - 1, any, any])
}

// A number above this one, at most the most: either of the ends, up to twice the number,
// or any.
fn higher(random: &mut Random, number: u32, most: u32) -> u32 {
    let twice = random.between(number + 1, (2 * number).min(most));
    let any = random.between(number + 1, most);
    random.pick(&[most, number + 1, twice, any])
}

fn removed(random: &mut Random, table: &[Task]) -> Option<Changed> {
    let mut table = table.to_vec();
    table.remove(random.below(table.len()));
    match table.is_empty() {
        true => None,
        false => Some(Changed { table, cores: 0 }),
    }
}

// A task of the table comes once more, at any place.
fn added(random: &mut Random, table: &[Task]) -> Option<Changed> {
    let task = random.pick(table);
    let mut table = table.to_vec();
    table.insert(random.below(table.len() + 1), task);
    match table.len() > MOST_TASKS {
        true => None,
        false => Some(Changed { table, cores: 0 }),
    }
}

// Two steps or more. A step that cannot be taken is left out.
fn several(random: &mut Random, table: &[Task]) -> Option<Changed> {
    let mut changed = Changed {
        table: table.to_vec(),
        cores: 0,
    };
    for _ in 0..random.pick(&[2, 2, 3, 4, 8, 2 * table.len()]) {
        let step = random.pick(&SINGLE);
        if let Some(next) = step.take(random, &changed.table) {
            changed.cores += next.cores;
            changed.table = next.table;
        }
    }
    Some(changed)
}

/// A table near the boundary of one of the tests: of 1 to 32 tasks, with tasks without
/// spare, with sums about m·A_k, with up to 64 rounds or cut after these.
pub fn table(random: &mut Random) -> Vec<Task> {
    match random.below(16) {
        0 => valid(random),
        1..=3 => by_the_slack_test_alone(random),
        4 => slow::table(random),
        5 | 6 => slow::near_cut(random),
        7 => extremes::table(random),
        8 => {
            let tables = FOUND.map(|found| found.table);
            random.pick(&tables).to_vec()
        }
        9 | 10 => {
            let tasks = random.pick(&[1, 2, 3, 8, MOST_TASKS]);
            let table = of_tasks(random, tasks);
            let admits = either_test(random);
            near_edge(random, table, admits)
        }
        11 | 12 => with_largest_budgets(random),
        _ => with_whole_periods(random),
    }
}

fn either_test(random: &mut Random) -> Admits {
    random.pick(&[window::admits, slack::admits])
}

// On the fewest cores on which the slack test admits it the window test does not, if one of
// a few tables is so.
fn by_the_slack_test_alone(random: &mut Random) -> Vec<Task> {
    let mut table = near_slack_edge(random);
    for _ in 0..12 {
        let fewest = (1..=MOST_CORES).find(|cores| slack::admits(&table, *cores));
        if fewest.is_some_and(|cores| !window::admits(&table, cores)) {
            break;
        }
        table = near_slack_edge(random);
    }
    table
}

// On some m: as many tasks without spare as cores, others of the same period, and one task
// with the largest budget that is admitted, or one more, whose deadline is a whole number
// of these periods. In a window one slot longer each of the others takes a slot more.
fn with_whole_periods(random: &mut Random) -> Vec<Task> {
    let cores = random.pick(&[1, 1, 2, 3]);
    let any = random.between(4, LONGEST_PERIOD / 8);
    let period = random.pick(&[4, 5, 6, 8, 12, any]);
    let most = period.div_ceil(4);
    let mut table = Vec::new();
    for _ in 0..cores {
        let budget = random.between(1, most);
        table.push(Task::new(period, budget, budget));
    }
    for _ in 0..random.between(1, 2) {
        table.push(Task::new(period, random.between(1, most), period));
    }
    let deadline = random.between(1, 4) * period;
    table.push(Task::new(
        deadline + random.between(1, deadline),
        1,
        deadline,
    ));
    let last = table.len() - 1;
    let largest = largest_budget(&table, last, cores, either_test(random));
    let over = random.pick(&[0, 0, 0, 1]);
    table[last].budget = (largest + over).min(deadline);
    let first = random.below(table.len());
    table.rotate_left(first);
    table
}

// Every task in turn gets the largest budget with which the table is still admitted on
// some m, or sometimes a smaller one. So up to m tasks have no spare, and others a sum
// just below m·A_k.
fn with_largest_budgets(random: &mut Random) -> Vec<Task> {
    let tasks = 3 + random.below(6);
    let mut table = of_tasks(random, tasks);
    for task in &mut table {
        task.budget = 1;
    }
    let cores = random.between(1, 4);
    let admits = either_test(random);
    for k in 0..tasks {
        let largest = largest_budget(&table, k, cores, admits);
        let any = random.between(1, largest);
        table[k].budget = random.pick(&[largest, largest, largest, any]);
    }
    let first = random.below(tasks);
    table.rotate_left(first);
    table
}

// By halving; 1 where no budget of this task is admitted.
fn largest_budget(table: &[Task], k: usize, cores: u32, admits: Admits) -> u32 {
    let mut table = table.to_vec();
    let (mut low, mut high) = (1, table[k].deadline + 1);
    while high - low > 1 {
        let middle = low + (high - low) / 2;
        table[k].budget = middle;
        match admits(&table, cores) {
            true => low = middle,
            false => high = middle,
        }
    }
    low
}
