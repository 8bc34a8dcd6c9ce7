//! Numbers 2, 3, 4, 16 and 5 of a text of ranges clause by clause (document 02, change 9): all
//! that is wrong with its lines, whichever comes first. A second statement beside the reading's
//! own.

use crate::ranges::{NAMES_LINE, RangedTask};
use crate::reading::{LINE_END, MOST_BYTES, read_values};
use crate::tasks::{LONGEST_PERIOD, MOST_TASKS, Refusal};

/// What can be wrong with five values: a name, the refusal number, and whether it is so.
pub type Clause = (&'static str, u32, fn(&RangedTask) -> bool);

pub const PERIOD_ORDER: &str = "least period above the most";
pub const BUDGET_ORDER: &str = "least budget above the most";
pub const DEAR: &str = "dear corner, ";
pub const CHEAP: &str = "cheap corner, ";

/// All that can be wrong with five values.
pub const CLAUSES: [Clause; 10] = [
    (PERIOD_ORDER, 16, |task| {
        task.least_period > task.most_period
    }),
    (BUDGET_ORDER, 16, |task| {
        task.least_budget > task.most_budget
    }),
    ("dear corner, C 0", 5, |task| task.most_budget == 0),
    ("dear corner, C above D", 5, |task| {
        task.most_budget > task.deadline
    }),
    ("dear corner, D above T", 5, |task| {
        task.deadline > task.least_period
    }),
    ("dear corner, T above 1,000,000", 5, |task| {
        task.least_period > LONGEST_PERIOD
    }),
    ("cheap corner, C 0", 5, |task| task.least_budget == 0),
    ("cheap corner, C above D", 5, |task| {
        task.least_budget > task.deadline
    }),
    ("cheap corner, D above T", 5, |task| {
        task.deadline > task.most_period
    }),
    ("cheap corner, T above 1,000,000", 5, |task| {
        task.most_period > LONGEST_PERIOD
    }),
];

/// A refusal that a text has a cause for, and the clause of 16 and 5.
#[derive(Clone, Copy, Debug, PartialEq, Eq)]
pub struct Fault {
    pub refusal: Refusal,
    pub clause: &'static str,
}

impl Fault {
    fn at(number: u32, place: usize, clause: &'static str) -> Fault {
        let refusal = Refusal::at(number, place);
        Fault { refusal, clause }
    }
}

/// The value lines of a text, the last perhaps not ended. None where 1 or 2 refuses it.
pub fn value_lines(text: &[u8]) -> Option<Vec<&[u8]>> {
    let whole = Some(text).filter(|text| text.len() <= MOST_BYTES)?;
    let values = whole.strip_prefix(NAMES_LINE)?;
    Some(values.split_inclusive(|byte| *byte == LINE_END).collect())
}

/// Everything that is wrong with lines: the clauses of the first 32, and number 3 if there
/// are more.
pub fn faults(lines: &[&[u8]]) -> Vec<Fault> {
    let mut faults = Vec::new();
    for (place, line) in (1..=MOST_TASKS).zip(lines) {
        match values(line) {
            None => faults.push(Fault::at(4, place, "")),
            Some(task) => {
                let failing = CLAUSES.iter().filter(|(_, _, is_so)| is_so(&task));
                faults.extend(failing.map(|(clause, number, _)| Fault::at(*number, place, clause)));
            }
        }
    }
    if lines.len() > MOST_TASKS {
        faults.push(Fault::at(3, MOST_TASKS + 1, ""));
    }
    faults
}

/// The five values of a line, fitting or not.
pub fn values(line: &[u8]) -> Option<RangedTask> {
    let (values, _) = read_values(line)?;
    Some(RangedTask::new(values))
}
