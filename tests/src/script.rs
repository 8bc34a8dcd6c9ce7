//! Scripts for the program that replays calls: the number of cores, a table as
//! text and a list of calls, with the answers that document 01 expects, and
//! changes 1 to 6 and 10 of document 02.

use std::fmt;

use crate::machine::{Machine, Slot};
use crate::reading::{LINE_END, read};
use crate::tasks::{Refusal, Task};

/// The longest script, in bytes.
pub const MOST_SCRIPT_BYTES: usize = 65_536;

/// One line after the line CALLS.
#[derive(Clone, Copy, Debug, PartialEq, Eq)]
pub enum Call {
    /// A release of a task, and its job's need, e.
    Release(u32, u32),
    Finish(u32),
    /// A slot with its number of cores, k.
    Slot(u32),
    Offer(Task),
    Commit,
    /// A line that is no call.
    Bad(&'static str),
}

/// The answer to one call, or to the start when the table or m is refused.
#[derive(Clone, Copy, Debug, PartialEq, Eq)]
pub enum Answer {
    Done,
    Ran(Slot),
    Refused(u32),
    /// The number of a line that is no call, from 1 in the whole script.
    BadLine(usize),
}

#[derive(Clone, Debug, PartialEq, Eq)]
pub struct Script {
    pub cores: u32,
    /// The table as text: empty, or ended by byte 10.
    pub table: Vec<u8>,
    pub calls: Vec<Call>,
}

impl fmt::Display for Call {
    fn fmt(&self, line: &mut fmt::Formatter) -> fmt::Result {
        match self {
            Call::Release(number, need) => write!(line, "RELEASE {number} {need}"),
            Call::Finish(number) => write!(line, "FINISH {number}"),
            Call::Slot(cores) => write!(line, "SLOT {cores}"),
            Call::Offer(task) => write!(line, "OFFER {task}"),
            Call::Commit => write!(line, "COMMIT"),
            Call::Bad(bytes) => write!(line, "{bytes}"),
        }
    }
}

// After the four numbers the core of each runner, in rising task number.
impl fmt::Display for Slot {
    fn fmt(&self, line: &mut fmt::Formatter) -> fmt::Result {
        let Slot {
            ran,
            finished,
            late,
            runners,
            assigned,
        } = self;
        write!(line, "{ran} {finished} {late} {runners}")?;
        let tasks = assigned.iter().enumerate();
        for (_, core) in tasks.filter(|(index, _)| ran >> index & 1 == 1) {
            write!(line, " {core}")?;
        }
        Ok(())
    }
}

impl fmt::Display for Answer {
    fn fmt(&self, line: &mut fmt::Formatter) -> fmt::Result {
        match self {
            Answer::Done => write!(line, "DONE"),
            Answer::Ran(slot) => write!(line, "{slot}"),
            Answer::Refused(number) => write!(line, "REFUSED {number}"),
            Answer::BadLine(number) => write!(line, "BAD LINE {number}"),
        }
    }
}

impl Script {
    /// The script as the program reads it.
    pub fn text(&self) -> Vec<u8> {
        let mut text = format!("CORES {}\n", self.cores).into_bytes();
        text.extend_from_slice(&self.table);
        text.extend_from_slice(b"CALLS\n");
        text.extend_from_slice(lines(&self.calls).as_bytes());
        text
    }

    /// A fresh machine on the script's table, or the refusal of reading or starting.
    pub fn start(&self) -> Result<Machine, Refusal> {
        Machine::start(&read(&self.table)?, self.cores)
    }

    /// The answers of the simulated machine. A refused start is the only one,
    /// and a line that is no call the last one.
    pub fn play(&self) -> Vec<Answer> {
        let mut machine = match self.start() {
            Ok(machine) => machine,
            Err(refusal) => return vec![Answer::Refused(refusal.number)],
        };
        let mut answers = Vec::new();
        for (index, call) in self.calls.iter().enumerate() {
            if matches!(call, Call::Bad(_)) {
                answers.push(Answer::BadLine(self.first_call_line() + index));
                break;
            }
            answers.push(carry_out(&mut machine, *call));
        }
        answers
    }

    // The line CORES, the lines of the table and the line CALLS come before.
    fn first_call_line(&self) -> usize {
        let table_lines = self.table.iter().filter(|byte| **byte == LINE_END);
        table_lines.count() + 3
    }
}

/// Calls or answers as lines, each ended by byte 10.
pub fn lines<T: fmt::Display>(items: &[T]) -> String {
    items.iter().map(|item| format!("{item}\n")).collect()
}

/// One call on the simulated machine.
pub fn carry_out(machine: &mut Machine, call: Call) -> Answer {
    let answer = match call {
        Call::Release(number, need) => machine.release(number, need).map(|()| Answer::Done),
        Call::Finish(number) => machine.finish(number).map(|()| Answer::Done),
        Call::Slot(cores) => machine.slot(cores).map(Answer::Ran),
        Call::Offer(task) => machine.offer(task).map(|()| Answer::Done),
        Call::Commit => machine.commit().map(|()| Answer::Done),
        Call::Bad(line) => panic!("no call: {line}"),
    };
    answer.unwrap_or_else(|refusal| Answer::Refused(refusal.number))
}
