//! The dispatching machine: document 01, "The slot machine", with the refusals
//! of "Why a call is not carried out", and changes 1 to 6 and 10 of document 02: each
//! slot names its cores, of equal deadlines the longer job goes first, an open task
//! whose gap is below its left makes a machine unsound, each runner has its own core,
//! each release names its job's need, e, and a task comes in by an offer, which goes by
//! the slack test, and a commit.

use std::cmp::Reverse;

use crate::slack;
use crate::tasks::{MOST_CORES, MOST_TASKS, Refusal, Task};
use crate::window::check;

/// What the machine holds for one task besides its three numbers.
#[derive(Clone, Copy, Debug, Default, PartialEq, Eq)]
pub struct Job {
    pub open: bool,
    /// Slots to the deadline.
    pub left: u32,
    /// Slots still owed.
    pub budget: u32,
    /// Slots until the next release is allowed.
    pub gap: u32,
    /// The task's core in the last accepted slot, 0 if it did not run in it.
    pub core: u32,
}

/// The table, m, one job record for each task, and the held task.
#[derive(Clone, Debug, PartialEq, Eq)]
pub struct Machine {
    pub table: Vec<Task>,
    pub cores: u32,
    pub jobs: Vec<Job>,
    /// The task that the machine holds: that of the last accepted offer, until a commit
    /// adds it.
    pub offered: Option<Task>,
}

/// What a slot tells, each set of tasks as the sum of 2 to the power
/// (task number − 1), the number of tasks that ran, and the core of each of them.
#[derive(Clone, Copy, Debug, Default, PartialEq, Eq)]
pub struct Slot {
    pub ran: u32,
    pub finished: u32,
    pub late: u32,
    pub runners: u32,
    /// By task from 0; 0 for every task that did not run.
    pub assigned: [u32; MOST_TASKS],
}

impl Job {
    /// Open, and left ≤ budget.
    pub fn urgent(&self) -> bool {
        self.open && self.left <= self.budget
    }

    // "Finish" and step 4 of a slot: a closed task has left 0 and budget 0. Its gap
    // and its core stay.
    fn close(&mut self) {
        self.open = false;
        self.left = 0;
        self.budget = 0;
    }

    // Number 0 for one task. A gap equal to left is sound, and a closed task's gap
    // is only held against T.
    fn is_sound(&self, task: &Task) -> bool {
        let numbers = if self.open {
            (1..=task.deadline).contains(&self.left)
                && (1..=task.budget).contains(&self.budget)
                && self.gap >= self.left
        } else {
            self.left == 0 && self.budget == 0
        };
        numbers && self.gap <= task.period && self.core <= MOST_CORES
    }
}

impl Machine {
    /// A fresh machine, on admitted and on refused tables. Refusals: those of judging.
    pub fn start(table: &[Task], cores: u32) -> Result<Machine, Refusal> {
        check(table, cores)?;
        Ok(Machine {
            table: table.to_vec(),
            cores,
            jobs: vec![Job::default(); table.len()],
            offered: None,
        })
    }

    /// Release of a task, which keeps its core, with its job's need, e. Refusals: 0, 8,
    /// 15, 9. Number 9 covers an open task too: on a sound machine its gap is at least
    /// its left, and so above 0.
    pub fn release(&mut self, number: u32, need: u32) -> Result<(), Refusal> {
        self.check_soundness()?;
        let index = self.index(number)?;
        let (task, job) = (self.table[index], &mut self.jobs[index]);
        if !(1..=task.budget).contains(&need) {
            return Err(Refusal::whole(15));
        }
        if job.gap > 0 {
            return Err(Refusal::whole(9));
        }
        *job = Job {
            open: true,
            left: task.deadline,
            budget: need,
            gap: task.period,
            ..*job
        };
        Ok(())
    }

    /// Finish of a task's job. Refusals: 0, 8, 11.
    pub fn finish(&mut self, number: u32) -> Result<(), Refusal> {
        self.check_soundness()?;
        let index = self.index(number)?;
        if !self.jobs[index].open {
            return Err(Refusal::whole(11));
        }
        self.jobs[index].close();
        Ok(())
    }

    /// One slot on k cores, its four steps in order. Refusals: 0, 14.
    pub fn slot(&mut self, cores: u32) -> Result<Slot, Refusal> {
        self.check_soundness()?;
        if !(self.cores..=MOST_CORES).contains(&cores) {
            return Err(Refusal::whole(14));
        }
        let picked = self.pick(cores);
        self.assign(&picked, cores);
        Ok(self.run(&picked))
    }

    /// Steps 2 to 4 of a slot with these runners, from 0, all of them open. The cores
    /// recorded stay.
    pub fn run(&mut self, picked: &[usize]) -> Slot {
        // Step 2.
        for index in picked {
            self.jobs[*index].budget -= 1;
        }
        // Step 3.
        for job in &mut self.jobs {
            job.left -= u32::from(job.open);
            job.gap = job.gap.saturating_sub(1);
        }
        self.close_jobs(picked)
    }

    /// Offer of a task, which the machine holds from then on in place of an earlier one.
    /// A refused one changes nothing. Refusals: 0, 5, 12, 13.
    pub fn offer(&mut self, task: Task) -> Result<(), Refusal> {
        self.check_soundness()?;
        self.check_offer(task)?;
        self.offered = Some(task);
        Ok(())
    }

    /// Commit of the held task, which is added; then none is held. Refusals: 0, 17.
    pub fn commit(&mut self) -> Result<(), Refusal> {
        self.check_soundness()?;
        let task = self.offered.take().ok_or(Refusal::whole(17))?;
        self.add(task);
        Ok(())
    }

    /// The join of document 01 by the slack test, on a machine that holds no task. It is no
    /// call: a commit gives the machine that it would give. Refusals: 0, 5, 12, 13.
    pub fn join(&mut self, task: Task) -> Result<(), Refusal> {
        assert_eq!(self.offered, None, "no task is held");
        self.check_soundness()?;
        self.check_offer(task)?;
        self.add(task);
        Ok(())
    }

    // 5, 12 and 13: the slack test on the table with the task at its end. The held task
    // plays no part.
    fn check_offer(&self, task: Task) -> Result<(), Refusal> {
        if !task.fits() {
            return Err(Refusal::whole(5));
        }
        if self.table.len() == MOST_TASKS {
            return Err(Refusal::whole(12));
        }
        let mut longer = self.table.clone();
        longer.push(task);
        // A verdict that is a refusal ends the offer with that refusal.
        match slack::judge(&longer, self.cores)?.admitted {
            true => Ok(()),
            false => Err(Refusal::whole(13)),
        }
    }

    // At the end of the table: closed, its gap 0, without a core.
    fn add(&mut self, task: Task) {
        self.table.push(task);
        self.jobs.push(Job::default());
    }

    /// Step 1: the first min(k, number open) open tasks in precedence, from 0.
    pub fn pick(&self, cores: u32) -> Vec<usize> {
        let open = (0..self.jobs.len()).filter(|index| self.jobs[*index].open);
        let mut order: Vec<usize> = open.collect();
        order.sort_by_key(|index| self.precedence(*index));
        order.truncate(usize::try_from(cores).expect("at most 16 cores"));
        order
    }

    // Urgent before not urgent; then smaller left; then larger budget still owed;
    // then lower number.
    fn precedence(&self, index: usize) -> (bool, u32, Reverse<u32>, usize) {
        let job = &self.jobs[index];
        (!job.urgent(), job.left, Reverse(job.budget), index)
    }

    // Change 4: whoever runs again and has a core among 1 to k keeps it. The others,
    // in precedence, take the cores that nobody keeps, in rising number.
    fn assign(&mut self, picked: &[usize], cores: u32) {
        let recorded: Vec<u32> = self.jobs.iter().map(|job| job.core).collect();
        let keeps = |index: usize| (1..=cores).contains(&recorded[index]);
        let keepers = picked.iter().filter(|index| keeps(**index));
        let kept: Vec<u32> = keepers.map(|index| recorded[*index]).collect();
        let mut unused = (1..=cores).filter(|core| !kept.contains(core));
        for job in &mut self.jobs {
            job.core = 0;
        }
        for index in picked {
            self.jobs[*index].core = match keeps(*index) {
                true => recorded[*index],
                false => unused.next().expect("no more runners than cores"),
            };
        }
    }

    // Step 4: budget 0 closes as finished, any other with left 0 closes as late.
    fn close_jobs(&mut self, picked: &[usize]) -> Slot {
        let mut slot = Slot {
            ran: picked.iter().map(|index| 1 << index).sum(),
            runners: u32::try_from(picked.len()).expect("at most 16 runners"),
            ..Slot::default()
        };
        for (index, job) in self.jobs.iter_mut().enumerate() {
            slot.assigned[index] = job.core;
            if job.open && job.budget == 0 {
                job.close();
                slot.finished += 1 << index;
            } else if job.open && job.left == 0 {
                job.close();
                slot.late += 1 << index;
            }
        }
        slot
    }

    // Number 8, or the place of a task in the table from 0.
    fn index(&self, number: u32) -> Result<usize, Refusal> {
        let number = usize::try_from(number).expect("a number of 32 bits");
        if (1..=self.table.len()).contains(&number) {
            Ok(number - 1)
        } else {
            Err(Refusal::whole(8))
        }
    }

    // Number 0: no start and no call leaves such a machine.
    fn check_soundness(&self) -> Result<(), Refusal> {
        match self.is_sound() {
            true => Ok(()),
            false => Err(Refusal::whole(0)),
        }
    }

    /// Whether the table and m start, every job is sound, no core is recorded twice, and
    /// an offer would take the held task now.
    pub fn is_sound(&self) -> bool {
        let starts = (1..=MOST_TASKS).contains(&self.table.len())
            && self.table.iter().all(Task::fits)
            && (1..=MOST_CORES).contains(&self.cores)
            && self.jobs.len() == self.table.len();
        let mut jobs = self.table.iter().zip(&self.jobs);
        let takes = |task: Task| self.check_offer(task).is_ok();
        starts
            && jobs.all(|(task, job)| job.is_sound(task))
            && !self.shares_a_core()
            && self.offered.is_none_or(takes)
    }

    // Whether one core is recorded for two tasks. 0 is no core.
    fn shares_a_core(&self) -> bool {
        let recorded = self.jobs.iter().map(|job| job.core);
        let mut cores: Vec<u32> = recorded.filter(|core| *core != 0).collect();
        cores.sort_unstable();
        cores.windows(2).any(|pair| pair[0] == pair[1])
    }
}
