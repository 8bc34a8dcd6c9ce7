//! How near a table is to the boundaries of both tests, from what the programs print of it
//! on so many cores.

use crate::answers::Answers;
use crate::tasks::Task;
use crate::window::{spare, sum};
use crate::wrong::{LIMIT_63, LIMIT_65, named};

/// A table on so many cores, and the numbers of its lines.
pub struct Line<'a> {
    table: &'a [Task],
    cores: u32,
    count: u32,
    rounds: u32,
    window: bool,
    slack: bool,
}

/// A name, how many lines of a thousand tables are so at the least, and whether a line is.
type Event = (&'static str, u64, fn(&Line) -> bool);

/// What the lines of many tables should meet.
pub const EVENTS: [Event; 16] = [
    ("tables of 1 task", 2, |line| line.is_table_of(1)),
    ("tables of 2 tasks", 70, |line| line.is_table_of(2)),
    ("tables of 3 tasks", 90, |line| line.is_table_of(3)),
    ("tables of 8 tasks", 10, |line| line.is_table_of(8)),
    ("tables of 32 tasks", 10, |line| line.is_table_of(32)),
    ("admitted by the window test, COUNT = m", 250, |line| {
        line.window && line.count == line.cores
    }),
    ("COUNT = m + 1", 150, |line| line.count == line.cores + 1),
    ("admitted by the slack test alone", 150, |line| {
        line.slack && !line.window
    }),
    ("admitted by neither test", 500, |line| {
        !line.slack && !line.window
    }),
    ("admitted, a sum one below m·A", 200, |line| {
        line.slack && line.has_sum(|sum, goal| sum + 1 == goal)
    }),
    ("admitted, a sum of just m·A above 0", 120, |line| {
        line.slack && line.has_sum(|sum, goal| sum == goal && goal > 0)
    }),
    (
        "admitted by the window test, m tasks without spare",
        100,
        |line| line.window && line.without_spare() == line.cores,
    ),
    (
        "admitted by the slack test alone, 3 to 63 rounds",
        150,
        |line| line.slack && !line.window && (3..=63).contains(&line.rounds),
    ),
    ("admitted, cut after 64 rounds", 20, |line| {
        line.slack && line.is_cut()
    }),
    ("admitted by the 64th round alone", 1, |line| {
        line.slack && line.is_cut() && !line.by(LIMIT_63).1
    }),
    ("not admitted, cut after 64 rounds", 5, |line| {
        !line.slack && line.is_cut()
    }),
];

impl Line<'_> {
    // On the first line, so that each table is counted once.
    fn is_table_of(&self, tasks: usize) -> bool {
        self.cores == 1 && self.table.len() == tasks
    }

    // A sum of the window test and its m·A are so.
    fn has_sum(&self, so: fn(u64, u64) -> bool) -> bool {
        let mut tasks = self.table.iter().enumerate();
        tasks.any(|(k, task)| so(sum(self.table, k), u64::from(self.cores) * spare(task)))
    }

    fn without_spare(&self) -> u32 {
        let tasks = self.table.iter().filter(|task| spare(task) == 0);
        tasks.map(|_| 1).sum()
    }

    // A slack still changes in the 64th round: with one more allowed it would be made.
    fn is_cut(&self) -> bool {
        self.by(LIMIT_65).0 > self.rounds
    }

    // The rounds and the verdict with another limit.
    fn by(&self, limit: &str) -> (u32, bool) {
        named(limit).judge(self.table, self.cores)
    }
}

/// The names of what the lines of a table meet, each as often as it is met.
pub fn met(table: &[Task], answers: &Answers) -> Vec<&'static str> {
    let [window, slack, _] = &answers.admitted;
    let numbers = answers.counts.iter().zip(&answers.rounds);
    let verdicts = window.iter().zip(slack);
    let lines = (1..).zip(numbers.zip(verdicts));
    let met = lines.flat_map(|(cores, ((count, rounds), (window, slack)))| {
        let line = Line {
            table,
            cores,
            count: *count,
            rounds: *rounds,
            window: *window,
            slack: *slack,
        };
        let events = EVENTS.iter().filter(move |(_, _, so)| so(&line));
        events.map(|(name, _, _)| *name)
    });
    met.collect()
}
