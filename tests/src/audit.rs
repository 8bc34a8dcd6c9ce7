//! The audit of another dispatcher's log: document 02, change 11, in the format of
//! docs/HANDBOOK.md, "Auditing a log". The whole input gives the one line that is printed.

use std::fmt;

use crate::log::{LOG_NAMES, Line, cut_line, read_line, read_number};
use crate::machine::{Job, Machine, Slot};
use crate::reading::{LINE_END, MOST_BYTES, read};
use crate::tasks::Refusal;

/// The number of a broken line of a log.
pub const BROKEN: u32 = 18;

/// What an audit answers.
#[derive(Clone, Copy, Debug, PartialEq, Eq)]
pub enum Audit {
    Accepted,
    /// The first value line that offends, from 1.
    Offends(usize),
    /// With the place: for number 18 the value line, 0 for the names line.
    Refused(Refusal),
    /// The number of a line of the input, from 1.
    BadLine(usize),
}

/// The three parts of an input.
#[derive(Clone, Copy, Debug, PartialEq, Eq)]
pub struct Input<'a> {
    pub cores: u32,
    pub table: &'a [u8],
    pub log: &'a [u8],
}

impl fmt::Display for Audit {
    fn fmt(&self, line: &mut fmt::Formatter) -> fmt::Result {
        match self {
            Audit::Accepted => write!(line, "ACCEPTED"),
            Audit::Offends(number) => write!(line, "OFFENDS {number}"),
            Audit::Refused(Refusal { number, place }) => write!(line, "REFUSED {number} {place}"),
            Audit::BadLine(number) => write!(line, "BAD LINE {number}"),
        }
    }
}

/// The answer to a whole input.
pub fn audit(input: &[u8]) -> Audit {
    follow(input, |_, _| {})
}

/// The answer to a whole input. Each line that goes by the rules is handed on, with the
/// report of its slot.
pub fn follow(input: &[u8], seen: impl FnMut(Line, Slot)) -> Audit {
    match try_follow(input, seen) {
        Ok(()) => Audit::Accepted,
        Err(answer) => answer,
    }
}

fn try_follow(input: &[u8], mut seen: impl FnMut(Line, Slot)) -> Result<(), Audit> {
    let input = split(input)?;
    let table = read(input.table).map_err(Audit::Refused)?;
    let mut machine = Machine::start(&table, input.cores).map_err(Audit::Refused)?;
    let mut rest = after_names(input.log).ok_or(broken(0))?;
    let mut number = 0;
    while !rest.is_empty() {
        number += 1;
        let (line, after) = read_line(rest).ok_or(broken(number))?;
        let slot = judge(&mut machine, line).ok_or(Audit::Offends(number))?;
        seen(line, slot);
        rest = after;
    }
    Ok(())
}

/// Number 18 at a value line, or at 0.
pub fn broken(place: usize) -> Audit {
    Audit::Refused(Refusal::at(BROKEN, place))
}

/// The first line is tried first, then the length of the table's text, then the line LOG.
pub fn split(input: &[u8]) -> Result<Input<'_>, Audit> {
    let (first, rest) = cut_line(input).ok_or(Audit::BadLine(1))?;
    let cores = read_cores(first).ok_or(Audit::BadLine(1))?;
    let (table, log) = cut_at_log(rest);
    if table.len() > MOST_BYTES {
        return Err(Audit::Refused(Refusal::whole(1)));
    }
    // The line CORES and the ended lines of the table come before.
    let ended = table.iter().filter(|byte| **byte == LINE_END).count();
    let log = log.ok_or(Audit::BadLine(ended + 2))?;
    Ok(Input { cores, table, log })
}

/// m of a line CORES m, which stands without its end.
pub fn read_cores(line: &[u8]) -> Option<u32> {
    read_number(line.strip_prefix(b"CORES ")?)
}

/// What stands before the first line LOG, and what after it. A line is ended: without one
/// all stands before.
pub fn cut_at_log(text: &[u8]) -> (&[u8], Option<&[u8]>) {
    let mut rest = text;
    while let Some((line, after)) = cut_line(rest) {
        if line == b"LOG" {
            return (&text[..text.len() - rest.len()], Some(after));
        }
        rest = after;
    }
    (text, None)
}

/// The value lines, after the names in their one order.
pub fn after_names(log: &[u8]) -> Option<&[u8]> {
    let (names, after) = cut_line(log)?;
    (names == LOG_NAMES).then_some(after)
}

/// One line on the machine after the lines before it: its releases of whole budgets, its
/// finishes, and the running. None where it offends.
pub fn judge(machine: &mut Machine, line: Line) -> Option<Slot> {
    for index in indexes(line.released) {
        let whole = machine.table.get(index)?.budget;
        machine.release(number(index), whole).ok()?;
    }
    for index in indexes(line.finished) {
        machine.finish(number(index)).ok()?;
    }
    let runners = indexes(line.ran);
    runs_by_the_rules(machine, &runners).then(|| machine.run(&runners))
}

/// Whether so many run as must, all of them open, and no idle open task beats one of them.
pub fn runs_by_the_rules(machine: &Machine, runners: &[usize]) -> bool {
    let jobs = &machine.jobs;
    let is_open = |index: &usize| jobs.get(*index).is_some_and(|job| job.open);
    let open: Vec<usize> = (0..jobs.len()).filter(is_open).collect();
    let cores = usize::try_from(machine.cores).expect("at most 16 cores");
    if !runners.iter().all(is_open) || runners.len() != cores.min(open.len()) {
        return false;
    }
    let mut idle = open.iter().filter(|index| !runners.contains(index));
    !idle.any(|one| {
        let mut others = runners.iter();
        others.any(|other| beats(&jobs[*one], &jobs[*other]))
    })
}

/// In urgency or, both alike, in left. Ties beyond these are free.
pub fn beats(one: &Job, other: &Job) -> bool {
    match (one.urgent(), other.urgent()) {
        (true, false) => true,
        (false, true) => false,
        _ => one.left < other.left,
    }
}

/// The tasks of a value in rising number, from 0.
pub fn indexes(value: u32) -> Vec<usize> {
    (0..32).filter(|index| value >> index & 1 == 1).collect()
}

/// The number of a task, from 1.
pub fn number(index: usize) -> u32 {
    u32::try_from(index + 1).expect("at most 32 tasks")
}
