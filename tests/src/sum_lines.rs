//! What a comparison at the edges of the numbers should meet (document 02, change 7): for
//! a table on so many cores, the sums beside m·A_k, the largest numbers, windows beside
//! whole periods, and the versions of too few bits that would answer otherwise.

use crate::held::{Answer, RIGHT, SLACK_16, WRONG};
use crate::slack::{self, Round};
use crate::tasks::Task;
use crate::window::spare;

// The smallest number that does not fit in 16 bits.
const WORD: u64 = 65_536;
const LARGEST_GOAL: u64 = 16 * 999_999;
const LARGEST_SUM: u64 = 31 * 999_999;

/// A table on so many cores, and the rounds of the slack test.
pub struct Line<'a> {
    table: &'a [Task],
    cores: u32,
    rounds: Vec<Round>,
}

type Event = (&'static str, fn(&Line) -> bool);

const EVENTS: [Event; 26] = [
    ("the largest sum, 31·999,999", |line| {
        line.first(|sum, _| sum == LARGEST_SUM)
    }),
    ("the largest m·A, 16·999,999", |line| {
        line.first(|_, goal| goal == LARGEST_GOAL)
    }),
    ("a sum at the largest m·A", |line| {
        line.first(|sum, goal| goal == LARGEST_GOAL && sum == goal)
    }),
    ("a sum one below the largest m·A", |line| {
        line.first(|sum, goal| goal == LARGEST_GOAL && sum == goal - 1)
    }),
    ("a sum one above the largest m·A", |line| {
        line.first(|sum, goal| goal == LARGEST_GOAL && sum == goal + 1)
    }),
    ("a sum of 65,535", |line| {
        line.first(|sum, _| sum == WORD - 1)
    }),
    ("a sum of 65,536", |line| line.first(|sum, _| sum == WORD)),
    ("m·A of 65,535", |line| {
        line.first(|_, goal| goal == WORD - 1)
    }),
    ("m·A of 65,536", |line| line.first(|_, goal| goal == WORD)),
    ("a sum at m·A, above 16 bits", |line| {
        line.first(|sum, goal| goal >= WORD && sum == goal)
    }),
    ("a sum one below m·A, above 16 bits", |line| {
        line.first(|sum, goal| goal >= WORD && sum == goal - 1)
    }),
    ("a sum one above m·A, above 16 bits", |line| {
        line.first(|sum, goal| goal >= WORD && sum == goal + 1)
    }),
    ("a later sum one below m·A that had reached", |line| {
        line.falls(|_, after, goal| goal >= WORD && after == goal - 1)
    }),
    ("a later sum below m·A that was at it", |line| {
        line.falls(|before, _, goal| goal >= WORD && before == goal)
    }),
    ("a slack of 1, m·A above 16 bits", |line| {
        line.slack(|slack, spare, cores| slack == 1 && cores * spare >= WORD)
    }),
    ("a slack of 65,535", |line| {
        line.slack(|slack, _, _| slack == WORD - 1)
    }),
    ("a slack of 65,536", |line| {
        line.slack(|slack, _, _| slack == WORD)
    }),
    ("the largest slack, 999,999", |line| {
        line.slack(|slack, _, _| slack == 999_999)
    }),
    ("a window of one whole period", |line| {
        line.window(|window, task| window == u64::from(task.period))
    }),
    ("a window of two or more whole periods", |line| {
        line.window(|window, task| beside(window, task, 0))
    }),
    ("a window one short of two or more periods", |line| {
        line.window(|window, task| beside(window + 1, task, 0))
    }),
    ("a window one over two or more periods", |line| {
        line.window(|window, task| beside(window, task, 1))
    }),
    ("a period of 1 in a window of 1,000,000", |line| {
        line.window(|window, task| window == 1_000_000 && task.period == 1)
    }),
    ("a budget of the whole period, above 16 bits", |line| {
        let mut tasks = line.table.iter();
        tasks.any(|task| task.budget == task.period && task.period > 65_535)
    }),
    ("q·T·C of 4,294,967,295", |line| {
        line.window(|window, task| product(window, task) == u64::from(u32::MAX))
    }),
    ("q·T·C of 4,294,967,296", |line| {
        line.window(|window, task| product(window, task) == u64::from(u32::MAX) + 1)
    }),
];

// Two or more whole periods and so many slots. Of a period of 1 or 2 every window is so.
fn beside(window: u64, task: &Task, rest: u64) -> bool {
    let period = u64::from(task.period);
    period > 2 && window / period >= 2 && window % period == rest
}

// (q·T)·C, of which the T-th part is q·C.
fn product(window: u64, task: &Task) -> u64 {
    let period = u64::from(task.period);
    (window - window % period) * u64::from(task.budget)
}

impl Line<'_> {
    // A sum of the first round and its m·A are so.
    fn first(&self, so: fn(u64, u64) -> bool) -> bool {
        let mut tasks = self.table.iter().zip(&self.rounds[0].sums);
        tasks.any(|(task, sum)| so(*sum, self.goal(task)))
    }

    // A sum that reached, the same a round later, below m·A, and m·A are so.
    fn falls(&self, so: fn(u64, u64, u64) -> bool) -> bool {
        self.rounds.windows(2).any(|pair| {
            let sums = pair[0].sums.iter().zip(&pair[1].sums);
            let mut tasks = self.table.iter().zip(sums);
            tasks.any(|(task, (before, after))| {
                let goal = self.goal(task);
                *before >= goal && *after < goal && so(*before, *after, goal)
            })
        })
    }

    // A last slack, its task's spare and m are so.
    fn slack(&self, so: fn(u64, u64, u64) -> bool) -> bool {
        let last = self.rounds.last().expect("a first round");
        let mut tasks = self.table.iter().zip(&last.slacks);
        tasks.any(|(task, slack)| so(*slack, spare(task), u64::from(self.cores)))
    }

    // The window of one task, and another task in it, are so.
    fn window(&self, so: fn(u64, &Task) -> bool) -> bool {
        let tasks = self.table.iter().enumerate();
        let mut windows = tasks.map(|(k, task)| (k, u64::from(task.deadline)));
        windows.any(|(k, window)| {
            let others = self.table.iter().enumerate();
            let mut others = others.filter(|(i, _)| *i != k);
            others.any(|(_, task)| so(window, task))
        })
    }

    fn goal(&self, task: &Task) -> u64 {
        u64::from(self.cores) * spare(task)
    }
}

/// The names of all that should be met. Slacks play no part in the window test.
pub fn names() -> Vec<String> {
    let events = EVENTS.iter().map(|(name, _)| name.to_string());
    let told = WRONG.iter().flat_map(|(wrong, _)| {
        let slack = [by_rounds(wrong), by_verdict(wrong)];
        let window = [by_count(wrong), by_window(wrong)];
        let window = window.into_iter().filter(|_| *wrong != SLACK_16);
        window.chain(slack).collect::<Vec<_>>()
    });
    events.chain(told).collect()
}

/// The names of what a table on so many cores meets.
pub fn met(table: &[Task], cores: u32) -> Vec<String> {
    let rounds = slack::rounds(table, cores).expect("a verdict");
    let line = Line {
        table,
        cores,
        rounds,
    };
    let events = EVENTS.iter().filter(|(_, happens)| happens(&line));
    let events = events.map(|(name, _)| name.to_string());
    events.chain(told(table, cores)).collect()
}

// The wrong versions with another answer.
fn told(table: &[Task], cores: u32) -> Vec<String> {
    let right = RIGHT.answer(table, cores);
    let names = WRONG.iter().flat_map(|(wrong, version)| {
        let answer = version.answer(table, cores);
        differences(wrong, right, answer)
    });
    names.collect()
}

fn differences(wrong: &str, right: Answer, other: Answer) -> Vec<String> {
    let names = [
        (right.count != other.count, by_count(wrong)),
        (right.window != other.window, by_window(wrong)),
        (right.rounds != other.rounds, by_rounds(wrong)),
        (right.slack != other.slack, by_verdict(wrong)),
    ];
    let differ = names.into_iter().filter(|(differs, _)| *differs);
    differ.map(|(_, name)| name).collect()
}

fn by_count(wrong: &str) -> String {
    format!("another COUNT by {wrong}")
}

fn by_window(wrong: &str) -> String {
    format!("another verdict of the window test by {wrong}")
}

fn by_rounds(wrong: &str) -> String {
    format!("other rounds by {wrong}")
}

fn by_verdict(wrong: &str) -> String {
    format!("another verdict by {wrong}")
}
