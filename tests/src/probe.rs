//! Machines made by hand, sound or not, as the program `probe` takes them, and what
//! it prints for one call on such a machine: document 01 with changes 1 to 6 and 10 of
//! document 02. All 32 entries are there, those past the count too, and the held task.

use std::fmt;

use crate::machine::{Job, Machine};
use crate::script::{Answer, Call, carry_out};
use crate::tasks::{MOST_TASKS, Task};

/// One entry of a machine: a task's three numbers and its job.
#[derive(Clone, Copy, Debug, PartialEq, Eq)]
pub struct Entry {
    pub task: Task,
    pub job: Job,
}

/// A machine of any numbers. Its table is the first `count` entries.
#[derive(Clone, Debug, PartialEq, Eq)]
pub struct HandMade {
    pub count: u32,
    pub cores: u32,
    pub entries: [Entry; MOST_TASKS],
    /// The task that the machine holds.
    pub offered: Option<Task>,
}

/// A machine made by hand and one call on it.
#[derive(Clone, Debug, PartialEq, Eq)]
pub struct Probe {
    pub machine: HandMade,
    pub call: Call,
}

impl Entry {
    /// An entry of zeros.
    pub const ZERO: Entry = Entry::fresh(Task::new(0, 0, 0));

    /// A task as a start or a commit leaves it: closed, its left, budget and gap 0, and
    /// without a core.
    pub const fn fresh(task: Task) -> Entry {
        let job = Job {
            open: false,
            left: 0,
            budget: 0,
            gap: 0,
            core: 0,
        };
        Entry { task, job }
    }

    /// An entry from its line's eight numbers, the fourth of them 0 or 1.
    pub const fn of_line(line: [u32; 8]) -> Entry {
        let [period, task_budget, deadline, open, left, budget, gap, core] = line;
        let job = Job {
            open: open == 1,
            left,
            budget,
            gap,
            core,
        };
        let task = Task::new(period, task_budget, deadline);
        Entry { task, job }
    }
}

impl fmt::Display for Entry {
    fn fmt(&self, line: &mut fmt::Formatter) -> fmt::Result {
        let (task, open) = (self.task, u32::from(self.job.open));
        let (left, owed, gap) = (self.job.left, self.job.budget, self.job.gap);
        let core = self.job.core;
        write!(line, "{task} {open} {left} {owed} {gap} {core}")
    }
}

// The 34 lines of a machine, each ended by byte 10.
impl fmt::Display for HandMade {
    fn fmt(&self, lines: &mut fmt::Formatter) -> fmt::Result {
        writeln!(lines, "MACHINE {} {}", self.count, self.cores)?;
        for entry in &self.entries {
            writeln!(lines, "{entry}")?;
        }
        match self.offered {
            Some(task) => writeln!(lines, "HELD {task}"),
            None => writeln!(lines, "NONE"),
        }
    }
}

impl HandMade {
    /// The machine of a simulation, with entries of zeros past its count.
    pub fn of_machine(machine: &Machine) -> HandMade {
        let mut made = HandMade {
            count: 0,
            cores: machine.cores,
            entries: [Entry::ZERO; MOST_TASKS],
            offered: None,
        };
        made.write(machine);
        made
    }

    /// The number of entries that belong to the table, or none if it is above 32.
    pub fn tasks(&self) -> Option<usize> {
        let tasks = usize::try_from(self.count).expect("a count of 32 bits");
        (tasks <= MOST_TASKS).then_some(tasks)
    }

    /// The table, m, the jobs and the held task, without the entries past the count.
    pub fn machine(&self) -> Option<Machine> {
        let entries = &self.entries[..self.tasks()?];
        Some(Machine {
            table: entries.iter().map(|entry| entry.task).collect(),
            cores: self.cores,
            jobs: entries.iter().map(|entry| entry.job).collect(),
            offered: self.offered,
        })
    }

    /// Writes the table and its jobs over the first entries, and no others, and the held
    /// task.
    pub fn write(&mut self, machine: &Machine) {
        let tasks = machine.table.iter().zip(&machine.jobs);
        for (entry, (task, job)) in self.entries.iter_mut().zip(tasks) {
            (entry.task, entry.job) = (*task, *job);
        }
        self.count = u32::try_from(machine.table.len()).expect("at most 32 tasks");
        self.offered = machine.offered;
    }
}

impl Probe {
    /// The machine's 34 lines and the line of the call.
    pub fn text(&self) -> String {
        format!("{}{}\n", self.machine, self.call)
    }

    /// The answer to the call and the machine after it.
    pub fn play(&self) -> (Answer, HandMade) {
        let mut after = self.machine.clone();
        // A start refuses a table of more than 32 tasks by 3.
        let Some(mut machine) = self.machine.machine() else {
            return (Answer::Refused(0), after);
        };
        let answer = carry_out(&mut machine, self.call);
        after.write(&machine);
        (answer, after)
    }
}

/// Everything that is printed for an answer and the machine after it.
pub fn output(answer: Answer, after: &HandMade) -> String {
    format!("{answer}\n{after}")
}
