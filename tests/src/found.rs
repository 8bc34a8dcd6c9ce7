//! Tables that tell the slack test from its wrong versions, the smallest that a
//! search found (the ignored tests of tests/search.rs), with their rounds and verdicts.

use crate::tasks::Task;
use crate::wrong::{EARLY_STOP, IN_PLACE, LAST_SLACKS, LIMIT_63, LIMIT_65, ROUNDED_UP};

/// A table on so many cores, and what the slack test answers.
pub struct Found {
    pub name: &'static str,
    pub cores: u32,
    pub table: &'static [Task],
    pub rounds: u32,
    pub admitted: bool,
    /// The slacks of the first round, of the one before the last, and of the last. With
    /// one round the second are those before it, 0.
    pub slacks: [&'static [u64]; 3],
    /// The wrong versions with another answer: their rounds and verdict.
    pub others: &'static [(&'static str, u32, bool)],
}

const fn task(period: u32, budget: u32, deadline: u32) -> Task {
    Task::new(period, budget, deadline)
}

/// The tables, small ones first.
pub const FOUND: [Found; 13] = [
    Found {
        name: "document 01, case g",
        cores: 2,
        table: &[task(10, 9, 10), task(10, 6, 10), task(5, 2, 5)],
        rounds: 1,
        admitted: false,
        slacks: [&[0, 0, 0], &[0, 0, 0], &[0, 0, 0]],
        others: &[],
    },
    Found {
        name: "document 002, section 5.2, four tasks",
        cores: 2,
        table: &[task(2, 1, 2), task(2, 1, 2), task(7, 1, 7), task(8, 3, 8)],
        rounds: 3,
        admitted: true,
        slacks: [&[0, 0, 1, 0], &[0, 0, 1, 1], &[0, 0, 1, 1]],
        others: &[
            (IN_PLACE, 2, true),
            (EARLY_STOP, 2, true),
            (ROUNDED_UP, 1, false),
        ],
    },
    Found {
        name: "smallest for an early stop",
        cores: 1,
        table: &[task(3, 1, 1), task(3, 1, 3)],
        rounds: 2,
        admitted: true,
        slacks: [&[0, 1], &[0, 1], &[0, 1]],
        others: &[(EARLY_STOP, 1, true)],
    },
    Found {
        name: "smallest for an update in place",
        cores: 1,
        table: &[task(3, 1, 3), task(4, 1, 4)],
        rounds: 3,
        admitted: true,
        slacks: [&[1, 1], &[1, 2], &[1, 2]],
        others: &[(IN_PLACE, 2, true), (EARLY_STOP, 1, true)],
    },
    Found {
        name: "smallest that the window test refuses",
        cores: 1,
        table: &[task(4, 1, 1), task(4, 1, 4), task(5, 1, 5)],
        rounds: 3,
        admitted: true,
        slacks: [&[0, 1, 0], &[0, 1, 1], &[0, 1, 1]],
        others: &[(IN_PLACE, 2, true), (EARLY_STOP, 2, true)],
    },
    Found {
        name: "smallest for a quotient rounded up",
        cores: 2,
        table: &[task(1, 1, 1), task(3, 1, 1), task(3, 1, 3)],
        rounds: 2,
        admitted: true,
        slacks: [&[0, 0, 1], &[0, 0, 1], &[0, 0, 1]],
        others: &[(EARLY_STOP, 1, true), (ROUNDED_UP, 1, true)],
    },
    Found {
        name: "smallest whose verdict a quotient rounded up changes",
        cores: 2,
        table: &[task(3, 1, 1), task(3, 1, 1), task(3, 1, 3), task(4, 1, 4)],
        rounds: 3,
        admitted: true,
        slacks: [&[0, 0, 1, 0], &[0, 0, 1, 1], &[0, 0, 1, 1]],
        others: &[
            (IN_PLACE, 2, true),
            (EARLY_STOP, 2, true),
            (ROUNDED_UP, 1, false),
        ],
    },
    Found {
        name: "63 rounds, the last of which changes nothing",
        cores: 1,
        table: &[task(92, 30, 61), task(122, 31, 122)],
        rounds: 63,
        admitted: true,
        slacks: [&[0, 31], &[31, 61], &[31, 61]],
        others: &[(IN_PLACE, 33, true), (EARLY_STOP, 1, true)],
    },
    Found {
        name: "64 rounds, the last of which changes nothing",
        cores: 1,
        table: &[task(94, 31, 62), task(125, 31, 125)],
        rounds: 64,
        admitted: true,
        slacks: [&[0, 32], &[31, 63], &[31, 63]],
        others: &[
            (IN_PLACE, 33, true),
            (EARLY_STOP, 1, true),
            (LIMIT_63, 63, true),
        ],
    },
    Found {
        name: "cut and admitted",
        cores: 1,
        table: &[task(95, 31, 63), task(126, 32, 126)],
        rounds: 64,
        admitted: true,
        slacks: [&[0, 32], &[31, 63], &[32, 63]],
        others: &[
            (IN_PLACE, 34, true),
            (EARLY_STOP, 1, true),
            (LIMIT_63, 63, true),
            (LIMIT_65, 65, true),
        ],
    },
    Found {
        name: "cut and refused, whatever the limit",
        cores: 1,
        table: &[
            task(99, 31, 65),
            task(130, 32, 130),
            task(130, 1, 1),
            task(130, 1, 1),
        ],
        rounds: 64,
        admitted: false,
        slacks: [&[0, 34, 0, 0], &[31, 65, 0, 0], &[32, 65, 0, 0]],
        others: &[
            (IN_PLACE, 34, false),
            (LIMIT_63, 63, false),
            (LIMIT_65, 65, false),
        ],
    },
    Found {
        name: "cut and admitted, refused a round before",
        cores: 1,
        table: &[
            task(187, 2, 2),
            task(156, 31, 94),
            task(187, 29, 33),
            task(187, 31, 187),
        ],
        rounds: 64,
        admitted: true,
        slacks: [&[0, 1, 0, 63], &[0, 32, 0, 94], &[0, 32, 1, 94]],
        others: &[
            (IN_PLACE, 33, true),
            (LIMIT_63, 63, false),
            (LIMIT_65, 65, true),
        ],
    },
    Found {
        name: "cut and refused, admitted a round later",
        cores: 1,
        table: &[
            task(188, 1, 1),
            task(157, 31, 94),
            task(188, 30, 32),
            task(188, 32, 188),
        ],
        rounds: 64,
        admitted: false,
        slacks: [&[0, 0, 0, 63], &[0, 31, 0, 94], &[0, 32, 0, 94]],
        others: &[
            (IN_PLACE, 34, true),
            (LIMIT_63, 63, false),
            (LIMIT_65, 65, true),
            (LAST_SLACKS, 64, true),
        ],
    },
];
