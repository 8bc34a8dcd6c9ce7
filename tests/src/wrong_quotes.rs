//! Wrong versions of the reading of ranges and of the answers over them, which the tests must
//! be able to tell from document 02, change 9.

use crate::quotes::{Answer, Quote, by_corners, cheap, dear, printed};
use crate::range_faults::{
    BUDGET_ORDER, CHEAP, DEAR, Fault, PERIOD_ORDER, faults, value_lines, values,
};
use crate::ranges::{NAMES_LINE, RangedTask};
use crate::reading::{LINE_END, MOST_BYTES, read_line};
use crate::tables::Admits;
use crate::tasks::{MOST_TASKS, Refusal, Task};
use crate::{slack, window};

/// How a version reads a text.
#[derive(Clone, Copy)]
pub struct Reader {
    /// The text as it is taken.
    takes: fn(&[u8]) -> Vec<u8>,
    /// Whether a line with this fault is refused.
    tries: fn(&Fault) -> bool,
    /// The fault with the smallest rank decides.
    rank: fn(&Refusal) -> [usize; 3],
}

/// The reading of the request: line by line, and 16 before 5.
pub const RIGHT: Reader = Reader {
    takes: <[u8]>::to_vec,
    tries: |_| true,
    rank: in_turn,
};

/// Wrong readings.
pub const READINGS: [(&str, Reader); 15] = [
    ("16 tried after the 5 of all lines", ranked(order_last)),
    ("16 tried before the 5 of all lines", ranked(order_first)),
    ("16 tried after its own line's 5", ranked(limits_first)),
    ("4 tried of all lines first", ranked(values_first)),
    ("3 tried first", ranked(crowd_first)),
    ("5 tried at the dear corner alone", trying(at_dear_alone)),
    ("5 tried at the cheap corner alone", trying(at_cheap_alone)),
    ("5 tried with both most alone", trying(at_both_most)),
    ("5 tried with both least alone", trying(at_both_least)),
    ("16 of the budget alone", trying(order_of_budget_alone)),
    ("16 of the period alone", trying(order_of_period_alone)),
    ("no 16", trying(|fault| fault.refusal.number != 16)),
    (
        "a 33rd line ignored",
        trying(|fault| fault.refusal.number != 3),
    ),
    ("the period's columns exchanged", taking(periods_exchanged)),
    ("the names in any order", taking(names_in_order)),
];

const fn ranked(rank: fn(&Refusal) -> [usize; 3]) -> Reader {
    Reader { rank, ..RIGHT }
}

const fn trying(tries: fn(&Fault) -> bool) -> Reader {
    Reader { tries, ..RIGHT }
}

const fn taking(takes: fn(&[u8]) -> Vec<u8>) -> Reader {
    Reader { takes, ..RIGHT }
}

/// Wrong answers.
pub const ANSWERS: [(&str, Quote); 10] = [
    ("the dear corner with the most period", |ranges, cores| {
        let dear = corner(ranges, |task| (task.most_period, task.most_budget));
        by(window::admits, &dear, &cheap(ranges), cores)
    }),
    ("the dear corner with the least budget", |ranges, cores| {
        let dear = corner(ranges, |task| (task.least_period, task.least_budget));
        by(window::admits, &dear, &cheap(ranges), cores)
    }),
    ("the cheap corner with the least period", |ranges, cores| {
        let cheap = corner(ranges, |task| (task.least_period, task.least_budget));
        by(window::admits, &dear(ranges), &cheap, cores)
    }),
    ("the cheap corner with the most budget", |ranges, cores| {
        let cheap = corner(ranges, |task| (task.most_period, task.most_budget));
        by(window::admits, &dear(ranges), &cheap, cores)
    }),
    ("NONE by the dear corner", |ranges, cores| {
        by(window::admits, &dear(ranges), &dear(ranges), cores)
    }),
    ("ALL by the cheap corner", |ranges, cores| {
        by(window::admits, &cheap(ranges), &cheap(ranges), cores)
    }),
    ("SOME unless ALL", |ranges, cores| {
        match by_corners(ranges, cores) {
            Answer::All => Answer::All,
            _ => Answer::Some,
        }
    }),
    ("the slack test", |ranges, cores| {
        by(slack::admits, &dear(ranges), &cheap(ranges), cores)
    }),
    ("COUNT < m at the dear corner", |ranges, cores| {
        let all = is_below(&dear(ranges), cores);
        Answer::at_corners(all, window::admits(&cheap(ranges), cores))
    }),
    ("COUNT < m at the cheap corner", |ranges, cores| {
        let all = window::admits(&dear(ranges), cores);
        Answer::at_corners(all, is_below(&cheap(ranges), cores))
    }),
];

/// The names of the wrong versions that would print otherwise for a text with this reading.
pub fn told(text: &[u8], reading: &Result<Vec<RangedTask>, Refusal>) -> Vec<&'static str> {
    let right = printed(reading, by_corners);
    let readings = READINGS.iter().filter(|(_, reader)| {
        let other = reader.read(text);
        other != *reading && printed(&other, by_corners) != right
    });
    let answers = ANSWERS
        .iter()
        .filter(|(_, quote)| printed(reading, *quote) != right);
    let readings = readings.map(|(name, _)| *name);
    readings.chain(answers.map(|(name, _)| *name)).collect()
}

impl Reader {
    /// The ranges that a text holds by this version, or why it is refused.
    pub fn read(&self, text: &[u8]) -> Result<Vec<RangedTask>, Refusal> {
        let text = (self.takes)(text);
        let lines = value_lines(&text).ok_or_else(|| early(&text))?;
        let found = faults(&lines);
        let refusals = found.iter().filter(|fault| (self.tries)(fault));
        let refusals = refusals.map(|fault| fault.refusal);
        if let Some(refusal) = refusals.min_by_key(self.rank) {
            return Err(refusal);
        }
        let lines = lines.iter().take(MOST_TASKS);
        let ranges: Option<Vec<_>> = lines.map(|line| values(line)).collect();
        let some = ranges.filter(|ranges| !ranges.is_empty());
        some.ok_or(Refusal::whole(6))
    }
}

// A text without value lines to look at.
fn early(text: &[u8]) -> Refusal {
    match text.len() > MOST_BYTES {
        true => Refusal::whole(1),
        false => Refusal::whole(2),
    }
}

// The place of a number among those that a line goes through.
fn step(refusal: &Refusal) -> usize {
    let steps = [3, 4, 16, 5];
    let step = steps.iter().position(|number| *number == refusal.number);
    step.expect("a number of a line")
}

fn in_turn(refusal: &Refusal) -> [usize; 3] {
    [0, refusal.place, step(refusal)]
}

fn order_last(refusal: &Refusal) -> [usize; 3] {
    let last = usize::from(refusal.number == 16);
    [last, refusal.place, step(refusal)]
}

fn order_first(refusal: &Refusal) -> [usize; 3] {
    let last = usize::from(refusal.number == 5);
    [last, refusal.place, step(refusal)]
}

fn limits_first(refusal: &Refusal) -> [usize; 3] {
    [0, refusal.place, usize::from(refusal.number == 16)]
}

fn values_first(refusal: &Refusal) -> [usize; 3] {
    let last = usize::from(refusal.number != 4);
    [last, refusal.place, step(refusal)]
}

fn crowd_first(refusal: &Refusal) -> [usize; 3] {
    let last = usize::from(refusal.number != 3);
    [last, refusal.place, step(refusal)]
}

fn at_dear_alone(fault: &Fault) -> bool {
    !fault.clause.starts_with(CHEAP)
}

fn at_cheap_alone(fault: &Fault) -> bool {
    !fault.clause.starts_with(DEAR)
}

// Of ranges in order, the table of both most does not see these.
fn at_both_most(fault: &Fault) -> bool {
    !["dear corner, D above T", "cheap corner, C 0"].contains(&fault.clause)
}

fn at_both_least(fault: &Fault) -> bool {
    !["dear corner, C above D", "cheap corner, T above 1,000,000"].contains(&fault.clause)
}

fn order_of_budget_alone(fault: &Fault) -> bool {
    fault.clause != PERIOD_ORDER
}

fn order_of_period_alone(fault: &Fault) -> bool {
    fault.clause != BUDGET_ORDER
}

// The first two values of each line change places.
fn periods_exchanged(text: &[u8]) -> Vec<u8> {
    let mut lines = text.split_inclusive(|byte| *byte == LINE_END);
    let mut taken = lines.next().unwrap_or_default().to_vec();
    for line in lines {
        let mut fields: Vec<&[u8]> = line.split(|byte| *byte == b' ').collect();
        if fields.len() > 2 {
            fields.swap(0, 1);
        }
        taken.extend(fields.join(&b' '));
    }
    taken
}

// The five names once each, in any order, are taken for the right ones; the values stay.
fn names_in_order(text: &[u8]) -> Vec<u8> {
    let Some((mut names, after)) = read_line::<5>(text) else {
        return text.to_vec();
    };
    let (mut right, _) = read_line::<5>(NAMES_LINE).expect("five names");
    names.sort_unstable();
    right.sort_unstable();
    match names == right {
        true => [NAMES_LINE, after].concat(),
        false => text.to_vec(),
    }
}

fn corner(ranges: &[RangedTask], numbers: fn(&RangedTask) -> (u32, u32)) -> Vec<Task> {
    let task = |range: &RangedTask| {
        let (period, budget) = numbers(range);
        Task::new(period, budget, range.deadline)
    };
    ranges.iter().map(task).collect()
}

fn by(admits: Admits, dear: &[Task], cheap: &[Task], cores: u32) -> Answer {
    Answer::at_corners(admits(dear, cores), admits(cheap, cores))
}

fn is_below(table: &[Task], cores: u32) -> bool {
    window::judge(table, cores).is_ok_and(|verdict| verdict.count < cores)
}
