//! What an accepted log over an admitted table promises (document 02, change 11), read from
//! the log alone: the job that line r releases has, in lines r to r + D − 1, its C runs or a
//! finish. A log that ends before says nothing about it.

use crate::audit::indexes;
use crate::log::{Line, Log};
use crate::tasks::Task;

/// How many jobs were closed in time by runs and by a finish, and how many the log ends
/// before.
#[derive(Clone, Copy, Debug, Default, PartialEq, Eq)]
pub struct Kept {
    pub by_runs: u64,
    pub by_finish: u64,
    pub cut: u64,
}

/// The jobs of a log, or the first that is neither run nor finished in time.
pub fn check(log: &Log) -> Result<Kept, String> {
    let mut kept = Kept::default();
    for (start, line) in log.lines.iter().enumerate() {
        for index in indexes(line.released) {
            let task = &log.table[index];
            let deadline = usize::try_from(task.deadline).expect("at most 1,000,000");
            let Some(window) = log.lines.get(start..start + deadline) else {
                kept.cut += 1;
                continue;
            };
            match closed_by(window, task, index) {
                Some(By::Runs) => kept.by_runs += 1,
                Some(By::Finish) => kept.by_finish += 1,
                None => return Err(format!("task {}, line {}", index + 1, start + 1)),
            }
        }
    }
    Ok(kept)
}

enum By {
    Runs,
    Finish,
}

// The first of the two in the D lines from the release on.
fn closed_by(window: &[Line], task: &Task, index: usize) -> Option<By> {
    let mut runs = 0;
    for line in window {
        if line.finished >> index & 1 == 1 {
            return Some(By::Finish);
        }
        runs += line.ran >> index & 1;
        if runs == task.budget {
            return Some(By::Runs);
        }
    }
    None
}
