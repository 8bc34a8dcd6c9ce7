//! What a comparison of small ranges with every table within them should meet.

use crate::quotes::{ANSWERS, Answer};
use crate::ranges::RangedTask;
use crate::tasks::Task;

/// Small ranges on so many cores: every table within with its verdict, and the answer.
pub struct Judged<'a> {
    pub ranges: &'a [RangedTask],
    pub cores: u32,
    pub tables: &'a [Vec<Task>],
    pub admitted: Vec<bool>,
    pub answer: Answer,
}

/// A name, and whether ranges on so many cores are so.
type Event = (&'static str, fn(&Judged) -> bool);

const EVENTS: [Event; 12] = [
    ("one table within", |judged| judged.tables.len() == 1),
    ("2 to 99 tables within", |judged| {
        (2..=99).contains(&judged.tables.len())
    }),
    ("100 tables within or more", |judged| {
        judged.tables.len() >= 100
    }),
    ("4 tasks", |judged| judged.ranges.len() == 4),
    ("SOME, one of several tables is admitted", |judged| {
        judged.tables.len() > 2 && judged.answer == Answer::Some && judged.times(true) == 1
    }),
    ("SOME, one of several tables is not admitted", |judged| {
        judged.tables.len() > 2 && judged.answer == Answer::Some && judged.times(false) == 1
    }),
    ("ALL, a table away from every end", |judged| {
        judged.answer == Answer::All && judged.has_inside(true)
    }),
    ("NONE, a table away from every end", |judged| {
        judged.answer == Answer::None && judged.has_inside(false)
    }),
    ("SOME, a table away from every end is admitted", |judged| {
        judged.answer == Answer::Some && judged.has_inside(true)
    }),
    (
        "SOME, a table away from every end is not admitted",
        |judged| judged.answer == Answer::Some && judged.has_inside(false),
    ),
    ("SOME by a period alone", |judged| {
        let mut ranges = judged.ranges.iter();
        judged.answer == Answer::Some && ranges.all(|task| task.least_budget == task.most_budget)
    }),
    ("SOME by a budget alone", |judged| {
        let mut ranges = judged.ranges.iter();
        judged.answer == Answer::Some && ranges.all(|task| task.least_period == task.most_period)
    }),
];

impl Judged<'_> {
    /// Fails where the answer is not true of every table within.
    pub fn is_true(&self) -> Result<(), String> {
        let (admitted, not) = (self.times(true), self.times(false));
        let so = match self.answer {
            Answer::All => not == 0,
            Answer::Some => admitted > 0 && not > 0,
            Answer::None => admitted == 0,
        };
        let (word, cores) = (self.answer.word(), self.cores);
        match so {
            true => Ok(()),
            false => Err(format!(
                "{word} on m = {cores}, and {admitted} tables are admitted, {not} not"
            )),
        }
    }

    // How many tables have this verdict.
    fn times(&self, verdict: bool) -> usize {
        let verdicts = self.admitted.iter().filter(|one| **one == verdict);
        verdicts.count()
    }

    // Whether a table whose numbers are at no end of their ranges has this verdict.
    fn has_inside(&self, verdict: bool) -> bool {
        let mut tables = self.tables.iter().zip(&self.admitted);
        tables.any(|(table, admitted)| *admitted == verdict && is_inside(table, self.ranges))
    }
}

// At least one range has numbers between its ends, and each number of such a range is one
// of these.
fn is_inside(table: &[Task], ranges: &[RangedTask]) -> bool {
    let number = |value: u32, least: u32, most: u32| match most - least {
        0 => None,
        _ => Some(least < value && value < most),
    };
    let numbers = table.iter().zip(ranges).flat_map(|(task, range)| {
        [
            number(task.period, range.least_period, range.most_period),
            number(task.budget, range.least_budget, range.most_budget),
        ]
    });
    let numbers: Vec<bool> = numbers.flatten().collect();
    !numbers.is_empty() && numbers.iter().all(|inside| *inside)
}

/// The names of all that should be met.
pub fn names() -> Vec<String> {
    let answers = ANSWERS
        .iter()
        .flat_map(|answer| [1, 2].map(|m| answer.on(m)));
    let events = EVENTS.iter().map(|(name, _)| name.to_string());
    answers.chain(events).collect()
}

/// The names of what small ranges on so many cores meet.
pub fn met(judged: &Judged) -> Vec<String> {
    let events = EVENTS.iter().filter(|(_, is_so)| is_so(judged));
    let events = events.map(|(name, _)| name.to_string());
    events.chain([judged.answer.on(judged.cores)]).collect()
}
