//! Logs as text: document 02, change 11, in the format of docs/HANDBOOK.md, "Auditing a
//! log". One line of three values for each slot, after a line of names.

use std::fmt;

use crate::reading::LINE_END;
use crate::tasks::Task;
use crate::texts::{ORDERS, write};

/// The names line, without its end.
pub const LOG_NAMES: &[u8] = b"RELEASED FINISHED RAN";

const MOST_DIGITS: usize = 10;

/// One slot: three sets of tasks, each as the sum of 2 to the power (task number − 1).
#[derive(Clone, Copy, Debug, Default, PartialEq, Eq)]
pub struct Line {
    pub released: u32,
    pub finished: u32,
    pub ran: u32,
}

/// A well-formed log, with the table and m that it is judged on.
#[derive(Clone, Debug, PartialEq, Eq)]
pub struct Log {
    pub cores: u32,
    pub table: Vec<Task>,
    pub lines: Vec<Line>,
}

impl Line {
    pub const fn new(released: u32, finished: u32, ran: u32) -> Line {
        Line {
            released,
            finished,
            ran,
        }
    }
}

impl fmt::Display for Line {
    fn fmt(&self, line: &mut fmt::Formatter) -> fmt::Result {
        let Line {
            released,
            finished,
            ran,
        } = self;
        write!(line, "{released} {finished} {ran}")
    }
}

impl Log {
    /// The log alone.
    pub fn text(&self) -> Vec<u8> {
        let mut text = LOG_NAMES.to_vec();
        text.push(LINE_END);
        for line in &self.lines {
            text.extend(format!("{line}\n").bytes());
        }
        text
    }

    /// The whole input of an audit.
    pub fn input(&self) -> Vec<u8> {
        input(self.cores, &write(&self.table, ORDERS[0]), &self.text())
    }
}

/// The input of an audit: the line CORES, a table's text, the line LOG and a log.
pub fn input(cores: u32, table: &[u8], log: &[u8]) -> Vec<u8> {
    let first = format!("CORES {cores}\n");
    [first.as_bytes(), table, b"LOG\n", log].concat()
}

/// The values of the first line, and the text after it.
pub fn read_line(text: &[u8]) -> Option<(Line, &[u8])> {
    let (line, after) = cut_line(text)?;
    let mut fields = line.split(|byte| *byte == b' ');
    let mut value = || fields.next().and_then(read_number);
    let read = Line::new(value()?, value()?, value()?);
    fields.next().is_none().then_some((read, after))
}

/// The first line without its byte 10, and the text after that.
pub fn cut_line(text: &[u8]) -> Option<(&[u8], &[u8])> {
    let end = text.iter().position(|byte| *byte == LINE_END)?;
    Some((&text[..end], &text[end + 1..]))
}

/// 1 to 10 digits without a leading zero, at most 4,294,967,295; 0 alone is well formed.
pub fn read_number(field: &[u8]) -> Option<u32> {
    let leading_zero = field.len() > 1 && field[0] == b'0';
    let fits = (1..=MOST_DIGITS).contains(&field.len());
    if leading_zero || !fits || !field.iter().all(u8::is_ascii_digit) {
        return None;
    }
    let digits = field.iter().map(|byte| u64::from(byte - b'0'));
    let value = digits.fold(0, |value, digit| value * 10 + digit);
    u32::try_from(value).ok()
}
