//! What document 01 and change 6 of document 02 expect of the C entry and of the
//! programs.

use crate::reading::read;
use crate::tasks::{MOST_CORES, MOST_TASKS, Task};
use crate::{slack, window};

/// The number that a host in C gets, by the slack test. The reading's refusals come
/// before number 7.
pub fn admit(text: &[u8], cores: u32) -> u32 {
    match read(text).and_then(|table| slack::judge(&table, cores)) {
        Ok(judged) => u32::from(judged.admitted),
        Err(refusal) => 100 + refusal.number,
    }
}

/// Everything that the verdict program prints for a text, by the window test.
pub fn verdict_output(text: &[u8]) -> String {
    judged_output(text, "CORES COUNT ADMIT", |table, cores| {
        let verdict = window::judge(table, cores).expect("a table on 1 to 16 cores");
        (verdict.count, verdict.admitted)
    })
}

/// Everything that `sharper` prints for a text.
pub fn sharper_output(text: &[u8]) -> String {
    judged_output(text, "CORES ROUNDS ADMIT", |table, cores| {
        let judged = slack::judge(table, cores).expect("a table on 1 to 16 cores");
        (judged.rounds, judged.admitted)
    })
}

/// Everything that the program that prints a whole reading prints for a text: a
/// refusal with its place, the count, and all 32 entries of the table.
pub fn reading_output(text: &[u8]) -> String {
    let (first, table) = match read(text) {
        Ok(table) => ("READ".to_string(), table),
        Err(refusal) => {
            let line = format!("REFUSED {} {}", refusal.number, refusal.place);
            (line, Vec::new())
        }
    };
    let mut lines = format!("{first}\n{}\n", table.len());
    for place in 0..MOST_TASKS {
        let task = table.get(place).copied().unwrap_or(Task::new(0, 0, 0));
        lines += &format!("{} {} {}\n", task.period, task.budget, task.deadline);
    }
    lines
}

// A refusal, or a line of names and then one line for each m up to 16 or the number of
// tasks.
fn judged_output(text: &[u8], names: &str, judge: fn(&[Task], u32) -> (u32, bool)) -> String {
    let table = match read(text) {
        Ok(table) => table,
        Err(refusal) => return format!("REFUSED {}\n", refusal.number),
    };
    let mut lines = format!("{names}\n");
    let tasks = u32::try_from(table.len()).expect("at most 32 tasks");
    for cores in 1..=tasks.min(MOST_CORES) {
        let (number, admitted) = judge(&table, cores);
        lines += &format!("{cores} {number} {}\n", u32::from(admitted));
    }
    lines
}
