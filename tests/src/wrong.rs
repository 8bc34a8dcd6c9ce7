//! Wrong versions of the slack test, which the tests must be able to tell from
//! document 02, change 6.

use crate::tasks::Task;
use crate::window::{interference, spare};

/// How a version makes its rounds.
#[derive(Clone, Copy, Debug, PartialEq, Eq)]
pub struct Version {
    /// Each sum uses the slacks that this round has changed already.
    in_place: bool,
    /// Rounds end as soon as at most m sums reach.
    stops_early: bool,
    limit: u32,
    /// The quotient is rounded up.
    rounds_up: bool,
    /// Those sums are counted that the last slacks would give.
    counts_with_last_slacks: bool,
}

/// The version of the document.
pub const RIGHT: Version = Version {
    in_place: false,
    stops_early: false,
    limit: 64,
    rounds_up: false,
    counts_with_last_slacks: false,
};

pub const IN_PLACE: &str = "slacks updated in place";
pub const EARLY_STOP: &str = "a stop as soon as at most m sums reach";
pub const LIMIT_63: &str = "at most 63 rounds";
pub const LIMIT_65: &str = "at most 65 rounds";
pub const ROUNDED_UP: &str = "the quotient rounded up";
pub const LAST_SLACKS: &str = "the count with the last slacks";

/// Every wrong version.
pub const WRONG: [(&str, Version); 6] = [
    (
        IN_PLACE,
        Version {
            in_place: true,
            ..RIGHT
        },
    ),
    (
        EARLY_STOP,
        Version {
            stops_early: true,
            ..RIGHT
        },
    ),
    (LIMIT_63, Version { limit: 63, ..RIGHT }),
    (LIMIT_65, Version { limit: 65, ..RIGHT }),
    (
        ROUNDED_UP,
        Version {
            rounds_up: true,
            ..RIGHT
        },
    ),
    (
        LAST_SLACKS,
        Version {
            counts_with_last_slacks: true,
            ..RIGHT
        },
    ),
];

/// The wrong version of this name.
pub fn named(wrong: &str) -> Version {
    let mut versions = WRONG.iter();
    let found = versions.find(|(name, _)| *name == wrong);
    found.expect("one of the names").1
}

impl Version {
    /// The rounds made, and whether a table that is not refused is admitted.
    pub fn judge(&self, table: &[Task], cores: u32) -> (u32, bool) {
        let mut slacks = vec![0; table.len()];
        let mut rounds = 0;
        loop {
            let before = slacks.clone();
            let count = self.round(table, cores, &mut slacks);
            rounds += 1;
            let stops = self.stops_early && count <= cores;
            if stops || slacks == before || rounds == self.limit {
                let count = match self.counts_with_last_slacks {
                    true => self.round(table, cores, &mut slacks),
                    false => count,
                };
                return (rounds, count <= cores);
            }
        }
    }

    // How many sums of a round reach m·A_k.
    fn round(&self, table: &[Task], cores: u32, slacks: &mut [u64]) -> u32 {
        let before = slacks.to_vec();
        let mut count = 0;
        for (k, task) in table.iter().enumerate() {
            let source = if self.in_place { &*slacks } else { &before };
            let sum = sum(table, k, source);
            slacks[k] = match sum >= u64::from(cores) * spare(task) {
                true => 0,
                false => spare(task) - self.quotient(sum, cores),
            };
            count += u32::from(sum >= u64::from(cores) * spare(task));
        }
        count
    }

    fn quotient(&self, sum: u64, cores: u32) -> u64 {
        match self.rounds_up {
            true => sum.div_ceil(u64::from(cores)),
            false => sum / u64::from(cores),
        }
    }
}

fn sum(table: &[Task], k: usize, slacks: &[u64]) -> u64 {
    let mut sum = 0;
    for (i, task) in table.iter().enumerate().filter(|(i, _)| *i != k) {
        let window = u64::from(table[k].deadline).saturating_sub(slacks[i]);
        sum += interference(task, window).min(spare(&table[k]));
    }
    sum
}
