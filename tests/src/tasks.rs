//! Tasks, their limits and refusals: document 01, "What belongs to it" and
//! "Why a call is not carried out".

use std::fmt;

pub const MOST_TASKS: usize = 32;
pub const MOST_CORES: u32 = 16;
pub const LONGEST_PERIOD: u32 = 1_000_000;

/// A task's three numbers, in slots: period T, budget C and deadline D.
#[derive(Clone, Copy, Debug, PartialEq, Eq)]
pub struct Task {
    pub period: u32,
    pub budget: u32,
    pub deadline: u32,
}

impl Task {
    /// A task from T, C, D, the order in which document 01 writes its cases.
    pub const fn new(period: u32, budget: u32, deadline: u32) -> Task {
        Task {
            period,
            budget,
            deadline,
        }
    }

    /// 1 ≤ C ≤ D ≤ T ≤ 1,000,000.
    pub fn fits(&self) -> bool {
        1 <= self.budget
            && self.budget <= self.deadline
            && self.deadline <= self.period
            && self.period <= LONGEST_PERIOD
    }
}

// T C D, as calls and machines write a task.
impl fmt::Display for Task {
    fn fmt(&self, line: &mut fmt::Formatter) -> fmt::Result {
        let Task {
            period,
            budget,
            deadline,
        } = self;
        write!(line, "{period} {budget} {deadline}")
    }
}

/// The number of a refusal, and the value line or task that it names (0 for none).
#[derive(Clone, Copy, Debug, PartialEq, Eq)]
pub struct Refusal {
    pub number: u32,
    pub place: usize,
}

impl Refusal {
    /// A refusal that names no line and no task.
    pub const fn whole(number: u32) -> Refusal {
        Refusal { number, place: 0 }
    }

    /// A refusal that names a value line or task, from 1.
    pub const fn at(number: u32, place: usize) -> Refusal {
        Refusal { number, place }
    }
}
