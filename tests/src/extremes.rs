//! Random valid tables at the edges of the numbers (document 02, change 7): periods,
//! budgets and deadlines near 1, powers of two and 1,000,000, windows of whole periods or
//! a slot beside, and sums about m·A_k up to the largest.

use crate::random::Random;
use crate::tables::{Admits, near_edge};
use crate::tasks::{LONGEST_PERIOD, MOST_CORES, MOST_TASKS, Task};
use crate::{slack, window};

const SMALL: [u32; 3] = [1, 2, 3];
const WORD: [u32; 3] = [65_535, 65_536, 65_537];
// The longest period and its parts, and their neighbours.
const LARGE: [u32; 8] = [
    333_333, 333_334, 499_999, 500_000, 500_001, 999_998, 999_999, 1_000_000,
];

// With a spare of 999,999, and a slot less.
const SPARED: [Task; 5] = [
    Task::new(LONGEST_PERIOD, 1, LONGEST_PERIOD),
    Task::new(LONGEST_PERIOD, 1, LONGEST_PERIOD),
    Task::new(LONGEST_PERIOD, 2, LONGEST_PERIOD),
    Task::new(LONGEST_PERIOD, 1, LONGEST_PERIOD - 1),
    Task::new(LONGEST_PERIOD - 1, 1, LONGEST_PERIOD - 1),
];

/// A table of 1 to 32 tasks, in any order.
pub fn table(random: &mut Random) -> Vec<Task> {
    let mut table = match random.below(8) {
        0 => scattered(random),
        1 | 2 => beside_whole_periods(random),
        3 | 4 => level(random),
        5 => above_24_bits(random),
        _ => crowd(random),
    };
    if random.one_in(4) {
        let admits: Admits = random.pick(&[window::admits, slack::admits]);
        table = near_edge(random, table, admits);
    }
    let first = random.below(table.len());
    table.rotate_left(first);
    table
}

// A number at an edge, from 1 up to the most.
fn number(random: &mut Random, most: u32) -> u32 {
    let power = 1 << random.between(1, 19);
    let number = match random.below(5) {
        0 => random.pick(&SMALL),
        1 => power - 1 + random.between(0, 2),
        2 => random.pick(&WORD),
        3 => random.pick(&LARGE),
        _ => most,
    };
    match number <= most {
        true => number,
        false => most - random.between(0, 1).min(most - 1),
    }
}

fn scattered(random: &mut Random) -> Vec<Task> {
    let most = random.pick(&[4, 17, MOST_TASKS]);
    let tasks = 1 + random.below(most);
    let task = |_| {
        let period = number(random, LONGEST_PERIOD);
        of_period(random, period)
    };
    (0..tasks).map(task).collect()
}

// The deadline is the period or at an edge, the budget 1, all or half of it or at an edge.
fn of_period(random: &mut Random, period: u32) -> Task {
    let edge = number(random, period);
    let deadline = random.pick(&[period, period, edge]);
    let edge = number(random, deadline);
    let budget = random.pick(&[1, deadline, deadline.div_ceil(2), edge]);
    Task::new(period, budget, deadline)
}

// Deadlines that are a whole multiple of one period, or a slot beside it.
fn beside_whole_periods(random: &mut Random) -> Vec<Task> {
    let period = number(random, LONGEST_PERIOD);
    let times = number(random, LONGEST_PERIOD / period);
    let most = random.pick(&[3, 16, MOST_TASKS - 1]);
    let tasks = 2 + random.below(most);
    let task = |_| match random.below(2) {
        0 => of_period(random, period),
        _ => {
            let deadline = times * period - 1 + random.between(0, 2);
            let deadline = deadline.clamp(1, LONGEST_PERIOD);
            let longer = random.pick(&[deadline, LONGEST_PERIOD]);
            Task::new(longer, number(random, deadline), deadline)
        }
    };
    (0..tasks).map(task).collect()
}

// A task with spare, and as many others as cores, which take its spare m times, or a
// slot less. Those after them take a slot each.
fn level(random: &mut Random) -> Vec<Task> {
    let any = random.between(1, MOST_CORES);
    let cores = random.pick(&[1, 2, 15, 16, any]);
    let deadline = number(random, LONGEST_PERIOD).max(2);
    let spare = number(random, deadline - 1);
    let mut table = vec![Task::new(LONGEST_PERIOD, deadline - spare, deadline)];
    for _ in 1..cores {
        table.push(taker(random, deadline, spare));
    }
    let last = random.pick(&[spare, spare - 1]);
    table.push(taker(random, deadline, last.max(1)));
    for _ in 0..random.pick(&[0, 0, 1, 2]) {
        table.push(taker(random, deadline, 1));
    }
    table
}

// Takes so many slots of a window. Most have no spare and so count always.
fn taker(random: &mut Random, window: u32, slots: u32) -> Task {
    let period = random.pick(&[window, LONGEST_PERIOD]);
    let deadline = random.pick(&[slots, slots, slots, slots, slots, period]);
    Task::new(period, slots, deadline)
}

// Tasks of the largest spare or nearly, and about 16 or 31 that take nearly all of it; or
// 31 or 32 equal tasks at the edge of admission.
fn crowd(random: &mut Random) -> Vec<Task> {
    if random.one_in(4) {
        let budget = number(random, LONGEST_PERIOD);
        let tasks = random.pick(&[MOST_TASKS - 1, MOST_TASKS]);
        let table = vec![Task::new(LONGEST_PERIOD, budget, LONGEST_PERIOD); tasks];
        return near_edge(random, table, slack::admits);
    }
    let spared = random.pick(&[1, 1, 1, 2, 16]);
    let busy = random
        .pick(&[14, 15, 16, 17, 30, 31])
        .min(MOST_TASKS - spared);
    let odd = random.pick(&[0, 1, 1, 2, busy]);
    let mut table = vec![random.pick(&SPARED); spared];
    table.resize(spared + busy - odd, Task::new(1, 1, 1));
    table.resize_with(spared + busy, || busy_task(random));
    table
}

// Takes every slot, or all but one or two of a million.
fn busy_task(random: &mut Random) -> Task {
    let period = number(random, LONGEST_PERIOD);
    let budget = random.pick(&[999_998, 999_999]);
    let deadline = random.pick(&[budget, LONGEST_PERIOD]);
    match random.below(2) {
        0 => Task::new(period, period, period),
        _ => Task::new(LONGEST_PERIOD, budget, deadline),
    }
}

// 17 tasks, at least 10 of them always busy and the others of the largest spare, and 15
// that have a slack on 16 cores, or barely not: they take up to twice their budget C of a
// million slots, and in their own deadline C from each other. So the others have sums
// above 2^24, and all 17 reach.
fn above_24_bits(random: &mut Random) -> Vec<Task> {
    let busy = random.between(10, 15);
    let most = ((16 - busy) * LONGEST_PERIOD - (17 - busy)) / (14 + 2 * (16 - busy));
    let budget = most + 2 - random.between(0, 4);
    let deadline = LONGEST_PERIOD - budget;
    let mut table = vec![Task::new(deadline, budget, deadline); 15];
    let busy = table.len() + usize::try_from(busy).expect("a few tasks");
    table.resize(busy, Task::new(1, 1, 1));
    table.resize(MOST_TASKS, Task::new(LONGEST_PERIOD, 1, LONGEST_PERIOD));
    table
}
