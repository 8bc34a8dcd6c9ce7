//! The answers on a table for one number of cores after the other: by `verdict`, by
//! `sharper` and by the C entry.

use crate::tasks::MOST_CORES;
use crate::{host, program};

/// The ways to a verdict: the first by the window test, the others by the slack test.
pub const WAYS: [&str; 3] = ["verdict", "sharper", "edzl_admit"];

/// What is answered on a table. Every list is in the order of m, from 1: the programs' up
/// to the smaller of 16 and the number of tasks, the C entry's up to 16.
#[derive(Clone, Debug, PartialEq, Eq)]
pub struct Answers {
    /// COUNT of the window test, as `verdict` prints it.
    pub counts: Vec<u32>,
    /// The rounds of the slack test, as `sharper` prints them.
    pub rounds: Vec<u32>,
    /// Whether the table is admitted, by each of the ways.
    pub admitted: [Vec<bool>; 3],
}

impl Answers {
    /// By the C entry alone: the programs' lists are empty. Fails where the text is refused.
    pub fn of_entry(text: &[u8]) -> Result<Answers, String> {
        let answer = |cores| match host::admit(text, cores) {
            0 => Ok(false),
            1 => Ok(true),
            other => Err(format!("edzl_admit answers {other} on m = {cores}")),
        };
        let admitted = (1..=MOST_CORES).map(answer).collect::<Result<_, _>>()?;
        Ok(Answers {
            counts: Vec::new(),
            rounds: Vec::new(),
            admitted: [Vec::new(), Vec::new(), admitted],
        })
    }

    /// By all three ways, for a text of so many tasks. Fails where it is refused.
    pub fn of_all(text: &[u8], tasks: usize) -> Result<Answers, String> {
        let [.., entry] = Answers::of_entry(text)?.admitted;
        let verdict = lines(&program::verdict_output(text), "CORES COUNT ADMIT", tasks);
        let (counts, window) = verdict?.into_iter().unzip();
        let sharper = lines(&program::sharper_output(text), "CORES ROUNDS ADMIT", tasks);
        let (rounds, slack) = sharper?.into_iter().unzip();
        Ok(Answers {
            counts,
            rounds,
            admitted: [window, slack, entry],
        })
    }
}

// The second number and the verdict of each line after the names.
fn lines(output: &[u8], names: &str, tasks: usize) -> Result<Vec<(u32, bool)>, String> {
    let output = String::from_utf8_lossy(output);
    let numbers = output.strip_prefix(names).and_then(|rest| {
        let lines = rest.strip_prefix('\n')?.lines();
        let lines = (1..).zip(lines).map(|(cores, line)| numbers(line, cores));
        lines.collect::<Option<Vec<_>>>()
    });
    let most = usize::try_from(MOST_CORES).expect("a few cores");
    let whole = numbers.filter(|lines| lines.len() == tasks.min(most));
    whole.ok_or_else(|| format!("printed \"{}\" for {tasks} tasks", output.escape_debug()))
}

// A line on m cores.
fn numbers(line: &str, cores: u32) -> Option<(u32, bool)> {
    let (m, rest) = line.split_once(' ')?;
    let (number, admitted) = rest.split_once(' ')?;
    let admitted = match admitted {
        "0" => false,
        "1" => true,
        _ => return None,
    };
    let number = number.parse().ok()?;
    (m == cores.to_string()).then_some((number, admitted))
}
