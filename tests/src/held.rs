//! Wrong versions of both tests that do not hold a number whole, which the tests must be
//! able to tell from document 02, change 7. In 32 bits all are whole: a part and a slack
//! are at most 999,999, m·A_k is at most 16·999,999 and a sum at most 31·999,999.

use crate::tasks::Task;
use crate::window::spare;

// What is left of a number.
type Hold = fn(u64) -> u64;

/// How a version holds its numbers.
#[derive(Clone, Copy)]
pub struct Held {
    /// min(I_i(L), A_k).
    part: Hold,
    /// The sum, after each part that is added.
    sum: Hold,
    /// m·A_k.
    goal: Hold,
    slack: Hold,
    /// (q·T_i)·C_i, of which the T_i-th part is q·C_i: a product of up to 10^12.
    product: Hold,
}

/// The version of the documents.
pub const RIGHT: Held = Held {
    part: whole,
    sum: whole,
    goal: whole,
    slack: whole,
    product: whole,
};

pub const SUM_16: &str = "sums in 16 bits";
pub const SUM_24: &str = "sums in 24 bits";
pub const PART_16: &str = "parts in 16 bits";
pub const GOAL_16: &str = "m·A in 16 bits";
pub const SLACK_16: &str = "slacks in 16 bits";
pub const PRODUCT_32: &str = "a product of 10^12 cut to 32 bits";
pub const CAP_16: &str = "sums capped at 65,535";
pub const CAP_PERIOD: &str = "sums capped at 1,000,000";
pub const CAP_GOAL: &str = "sums capped at 15,999,983";

/// Every wrong version. The last cap is the highest that changes an answer: one less than
/// 16·999,999, the largest m·A_k.
pub const WRONG: [(&str, Held); 9] = [
    (
        SUM_16,
        Held {
            sum: low::<16>,
            ..RIGHT
        },
    ),
    (
        SUM_24,
        Held {
            sum: low::<24>,
            ..RIGHT
        },
    ),
    (
        PART_16,
        Held {
            part: low::<16>,
            ..RIGHT
        },
    ),
    (
        GOAL_16,
        Held {
            goal: low::<16>,
            ..RIGHT
        },
    ),
    (
        SLACK_16,
        Held {
            slack: low::<16>,
            ..RIGHT
        },
    ),
    (
        PRODUCT_32,
        Held {
            product: low::<32>,
            ..RIGHT
        },
    ),
    (
        CAP_16,
        Held {
            sum: capped::<65_535>,
            ..RIGHT
        },
    ),
    (
        CAP_PERIOD,
        Held {
            sum: capped::<1_000_000>,
            ..RIGHT
        },
    ),
    (
        CAP_GOAL,
        Held {
            sum: capped::<15_999_983>,
            ..RIGHT
        },
    ),
];

/// A cap that changes no answer: no m·A_k is above it.
pub const HARMLESS_CAP: Held = Held {
    sum: capped::<15_999_984>,
    ..RIGHT
};

/// What both tests answer for a table that is not refused.
#[derive(Clone, Copy, Debug, PartialEq, Eq)]
pub struct Answer {
    pub count: u32,
    pub window: bool,
    pub rounds: u32,
    pub slack: bool,
}

fn whole(number: u64) -> u64 {
    number
}

fn low<const BITS: u32>(number: u64) -> u64 {
    number % (1 << BITS)
}

fn capped<const MOST: u64>(number: u64) -> u64 {
    number.min(MOST)
}

impl Held {
    /// The window test, which is the first round, and the slack test.
    pub fn answer(&self, table: &[Task], cores: u32) -> Answer {
        let mut slacks = vec![0; table.len()];
        let (count, mut after) = self.round(table, cores, &slacks);
        let (mut rounds, mut reaching) = (1, count);
        while after != slacks && rounds < 64 {
            slacks = after;
            (reaching, after) = self.round(table, cores, &slacks);
            rounds += 1;
        }
        Answer {
            count,
            window: count <= cores,
            rounds,
            slack: reaching <= cores,
        }
    }

    // How many sums reach m·A_k, and the slacks that follow.
    fn round(&self, table: &[Task], cores: u32, before: &[u64]) -> (u32, Vec<u64>) {
        let (mut reaching, mut slacks) = (0, Vec::new());
        for (k, task) in table.iter().enumerate() {
            let sum = self.sum(table, k, before);
            let reaches = sum >= (self.goal)(u64::from(cores) * spare(task));
            reaching += u32::from(reaches);
            slacks.push(match reaches {
                true => 0,
                false => (self.slack)(spare(task) - sum / u64::from(cores)),
            });
        }
        (reaching, slacks)
    }

    fn sum(&self, table: &[Task], k: usize, slacks: &[u64]) -> u64 {
        let mut sum = 0;
        for (i, task) in table.iter().enumerate().filter(|(i, _)| *i != k) {
            let window = u64::from(table[k].deadline).saturating_sub(slacks[i]);
            let part = self.interference(task, window).min(spare(&table[k]));
            sum = (self.sum)(sum + (self.part)(part));
        }
        sum
    }

    fn interference(&self, task: &Task, window: u64) -> u64 {
        let (period, budget) = (u64::from(task.period), u64::from(task.budget));
        let rest = window % period;
        let product = (window - rest) * budget;
        (self.product)(product) / period + budget.min(rest)
    }
}
