//! The answers over ranges (document 02, change 9): whether the window test admits all
//! tables within, some and not others, or none. By two of the tables, the corners, for ranges
//! of any size; what the answers mean is tried in `small_ranges`.

use crate::ranges::{RangedTask, read};
use crate::tasks::{MOST_CORES, Refusal, Task};
use crate::window;

/// Of how many tables within the window test admits.
#[derive(Clone, Copy, Debug, PartialEq, Eq)]
pub enum Answer {
    All,
    Some,
    None,
}

/// All answers, as the names of events need them.
pub const ANSWERS: [Answer; 3] = [Answer::All, Answer::Some, Answer::None];

/// An answer for ranges on so many cores.
pub type Quote = fn(&[RangedTask], u32) -> Answer;

impl Answer {
    /// The word that is printed.
    pub fn word(self) -> &'static str {
        match self {
            Answer::All => "ALL",
            Answer::Some => "SOME",
            Answer::None => "NONE",
        }
    }

    /// The answer over these verdicts.
    pub fn over(admitted: &[bool]) -> Answer {
        match (admitted.contains(&true), admitted.contains(&false)) {
            (true, false) => Answer::All,
            (true, true) => Answer::Some,
            (false, _) => Answer::None,
        }
    }

    /// The answer from the verdicts at the two corners.
    pub fn at_corners(dear: bool, cheap: bool) -> Answer {
        match (dear, cheap) {
            (true, _) => Answer::All,
            (false, true) => Answer::Some,
            (false, false) => Answer::None,
        }
    }

    /// The name of this answer on one core or on more.
    pub fn on(self, cores: u32) -> String {
        match cores {
            1 => format!("{} on 1 core", self.word()),
            _ => format!("{} on several cores", self.word()),
        }
    }

    /// Whether a table within may have this verdict.
    pub fn allows(self, admitted: bool) -> bool {
        match self {
            Answer::All => admitted,
            Answer::Some => true,
            Answer::None => !admitted,
        }
    }
}

/// The table at the dear corner, of the highest budgets with the lowest periods.
pub fn dear(ranges: &[RangedTask]) -> Vec<Task> {
    ranges.iter().map(RangedTask::dear).collect()
}

/// The table at the cheap corner, of the lowest budgets with the highest periods.
pub fn cheap(ranges: &[RangedTask]) -> Vec<Task> {
    ranges.iter().map(RangedTask::cheap).collect()
}

/// A table that is admitted stays so with budgets lowered and periods raised (change 8). So
/// all tables are admitted if the dearest is, and none if the cheapest is not.
pub fn by_corners(ranges: &[RangedTask], cores: u32) -> Answer {
    let [dear, cheap] = [dear(ranges), cheap(ranges)].map(|table| window::admits(&table, cores));
    Answer::at_corners(dear, cheap)
}

/// Everything that `quote` prints for a text.
pub fn quote_output(text: &[u8]) -> String {
    printed(&read(text), by_corners)
}

/// The lines for ranges that were read, or the line of a refusal.
pub fn printed(reading: &Result<Vec<RangedTask>, Refusal>, quote: Quote) -> String {
    let ranges = match reading {
        Ok(ranges) => ranges,
        Err(refusal) => return format!("REFUSED {}\n", refusal.number),
    };
    let mut lines = "CORES ANSWER\n".to_string();
    for cores in 1..=most_cores(ranges) {
        lines += &format!("{cores} {}\n", quote(ranges, cores).word());
    }
    lines
}

/// The smaller of 16 and the number of tasks.
pub fn most_cores(ranges: &[RangedTask]) -> u32 {
    let tasks = u32::try_from(ranges.len()).expect("at most 32 tasks");
    tasks.min(MOST_CORES)
}

/// The answers printed, one for each m from 1. None where something else is printed.
pub fn answers(printed: &str) -> Option<Vec<Answer>> {
    let lines = printed.strip_prefix("CORES ANSWER\n")?.lines();
    let lines = (1..).zip(lines);
    let answer = |(cores, line): (u32, &str)| {
        let word = line.strip_prefix(&format!("{cores} "))?;
        ANSWERS.into_iter().find(|answer| answer.word() == word)
    };
    lines.map(answer).collect()
}
