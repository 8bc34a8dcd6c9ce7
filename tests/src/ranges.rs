//! Ranges of tables, and their texts: document 02, change 9, in the format of the handbook's
//! section "Quotes over ranges". Of a task's period and budget a least and a most are known;
//! its deadline is fixed.

use crate::reading::{MOST_BYTES, read_values};
use crate::tasks::{MOST_TASKS, Refusal, Task};

/// The first line of every text of ranges, with its byte 10.
pub const NAMES_LINE: &[u8] = b"LEAST_PERIOD MOST_PERIOD LEAST_BUDGET MOST_BUDGET DEADLINE\n";

/// A task of which period and budget are ranges, in slots.
#[derive(Clone, Copy, Debug, PartialEq, Eq)]
pub struct RangedTask {
    pub least_period: u32,
    pub most_period: u32,
    pub least_budget: u32,
    pub most_budget: u32,
    pub deadline: u32,
}

impl RangedTask {
    /// A ranged task from the values of a line.
    pub const fn new(values: [u32; 5]) -> RangedTask {
        let [
            least_period,
            most_period,
            least_budget,
            most_budget,
            deadline,
        ] = values;
        RangedTask {
            least_period,
            most_period,
            least_budget,
            most_budget,
            deadline,
        }
    }

    /// The ranges with these corners, of one deadline.
    pub fn between(cheap: &Task, dear: &Task) -> RangedTask {
        let (periods, budgets) = ([dear.period, cheap.period], [cheap.budget, dear.budget]);
        RangedTask::new([
            periods[0],
            periods[1],
            budgets[0],
            budgets[1],
            cheap.deadline,
        ])
    }

    /// The values in the order in which a line has them.
    pub fn values(&self) -> [u32; 5] {
        [
            self.least_period,
            self.most_period,
            self.least_budget,
            self.most_budget,
            self.deadline,
        ]
    }

    /// The highest budget with the lowest period.
    pub fn dear(&self) -> Task {
        Task::new(self.least_period, self.most_budget, self.deadline)
    }

    /// The lowest budget with the highest period.
    pub fn cheap(&self) -> Task {
        Task::new(self.most_period, self.least_budget, self.deadline)
    }

    /// No least is above its most.
    pub fn is_in_order(&self) -> bool {
        self.least_period <= self.most_period && self.least_budget <= self.most_budget
    }

    /// Number 5 is tried at two corners.
    pub fn fits(&self) -> bool {
        self.dear().fits() && self.cheap().fits()
    }

    /// Whether period and budget are one value each.
    pub fn is_one_task(&self) -> bool {
        self.least_period == self.most_period && self.least_budget == self.most_budget
    }
}

/// The ranges that a text holds, or why it is refused.
pub fn read(text: &[u8]) -> Result<Vec<RangedTask>, Refusal> {
    if text.len() > MOST_BYTES {
        return Err(Refusal::whole(1));
    }
    let mut rest = text.strip_prefix(NAMES_LINE).ok_or(Refusal::whole(2))?;
    let mut ranges = Vec::new();
    while !rest.is_empty() {
        let (task, after) = read_task(rest, ranges.len() + 1)?;
        ranges.push(task);
        rest = after;
    }
    if ranges.is_empty() {
        return Err(Refusal::whole(6));
    }
    Ok(ranges)
}

// One value line goes through 3, 4, 16 and 5 in this order.
fn read_task(rest: &[u8], place: usize) -> Result<(RangedTask, &[u8]), Refusal> {
    if place > MOST_TASKS {
        return Err(Refusal::at(3, place));
    }
    let (values, after) = read_values(rest).ok_or(Refusal::at(4, place))?;
    let task = RangedTask::new(values);
    if !task.is_in_order() {
        return Err(Refusal::at(16, place));
    }
    if !task.fits() {
        return Err(Refusal::at(5, place));
    }
    Ok((task, after))
}

/// The well-formed text of ranges.
pub fn write(ranges: &[RangedTask]) -> Vec<u8> {
    let mut text = NAMES_LINE.to_vec();
    for task in ranges {
        text.extend(line(task.values()).bytes());
    }
    text
}

/// A line of five values.
pub fn line(values: [u32; 5]) -> String {
    format!("{}\n", values.map(|value| value.to_string()).join(" "))
}
