//! Demand 3 (document 01, "Demand 3 is a single claim about the whole list of
//! calls", with changes 1, 5, 6 and 10 of document 02), read from a script and its printed
//! answers alone: on a table that the slack test admits, whatever k each slot and
//! whatever e each release names, no slot reports a late job, and each released job is
//! closed in time, by having run e slots or by a finish. A refused slot is no slot in
//! anybody's D. An accepted commit adds the task of the last accepted offer since the last
//! accepted commit: it always has one, and a refused commit has none.

use crate::reading::read;
use crate::script::{Call, Script};
use crate::slack::admits;
use crate::tasks::Task;

/// How many released jobs were closed by running and by a finish, and how many
/// were still open when the calls ended before the deadline. Of those closed by
/// running, how many ran fewer slots than C. Of the closed ones, how many saw a
/// refused slot since their release, and how many saw more than D slots with the
/// refused ones: too late, if those were slots in D.
#[derive(Clone, Copy, Debug, Default, PartialEq, Eq)]
pub struct Kept {
    pub by_running: u64,
    pub by_fewer_runs_than_c: u64,
    pub by_a_finish: u64,
    pub undecided: u64,
    pub past_refused_slots: u64,
    pub too_late_if_counted: u64,
    /// Of the closed ones, those of tasks that a commit added.
    pub of_added_tasks: u64,
    /// Of the closed ones, those open while an offer or a commit was accepted.
    pub past_offers: u64,
    pub past_commits: u64,
}

// A job of an accepted release that is not closed yet.
struct Watch {
    number: u32,
    // Slot answers that must still say that the task ran: e at the release.
    runs: u32,
    // Whether e is below C.
    is_short: bool,
    // Accepted slots up to and including the D-th after the release.
    slots: u32,
    // Refused slots, accepted offers and accepted commits since the release.
    refused_slots: u32,
    offers: u32,
    commits: u32,
    // Whether a commit added its task.
    is_added: bool,
}

// Of the numbers of an accepted slot those that the demand reads: no core.
struct Printed {
    ran: u32,
    finished: u32,
    late: u32,
}

/// Whether the demand speaks of this script: its start table is admitted.
pub fn applies(script: &Script) -> bool {
    read(&script.table).is_ok_and(|table| admits(&table, script.cores))
}

/// The demand on a script with an admitted start table and what was printed.
pub fn check(script: &Script, printed: &str) -> Result<Kept, String> {
    let table = read(&script.table).map_err(|refusal| format!("{refusal:?}"))?;
    let mut record = Record {
        started: table.len(),
        table,
        offered: None,
        open: Vec::new(),
        kept: Kept::default(),
    };
    let mut answers = printed.lines();
    for (place, call) in (1..).zip(&script.calls) {
        if matches!(call, Call::Bad(_)) {
            break;
        }
        let answer = answers.next().ok_or(format!("call {place}: no answer"))?;
        let fault = match answer.starts_with("REFUSED ") {
            true => record.refuse(*call),
            false => record.accept(*call, answer),
        };
        fault.map_err(|fault| format!("call {place}: {fault}"))?;
    }
    record.kept.undecided = u64::try_from(record.open.len()).expect("a count of 64 bits");
    Ok(record.kept)
}

// The tasks so far, the task that a commit would add, and the jobs whose closing is still
// awaited.
struct Record {
    // How many tasks the table had at the start.
    started: usize,
    table: Vec<Task>,
    offered: Option<Task>,
    open: Vec<Watch>,
    kept: Kept,
}

impl Record {
    fn accept(&mut self, call: Call, answer: &str) -> Result<(), String> {
        if matches!(call, Call::Slot(_)) {
            return self.slot(&numbers(answer)?);
        }
        if answer != "DONE" {
            return Err(format!("no answer to such a call: {answer}"));
        }
        match call {
            Call::Release(number, need) => self.release(number, need)?,
            Call::Finish(number) => self.finish(number),
            Call::Offer(task) => self.offer(task),
            Call::Commit => self.commit()?,
            Call::Slot(_) | Call::Bad(_) => {}
        }
        Ok(())
    }

    // A refused slot is noted and counts for nothing else. A commit is refused only where
    // it has no task to add.
    fn refuse(&mut self, call: Call) -> Result<(), String> {
        if matches!(call, Call::Slot(_)) {
            for watch in &mut self.open {
                watch.refused_slots += 1;
            }
        }
        match self.offered {
            Some(task) if call == Call::Commit => Err(format!("a refused commit of {task}")),
            _ => Ok(()),
        }
    }

    fn offer(&mut self, task: Task) {
        self.offered = Some(task);
        for watch in &mut self.open {
            watch.offers += 1;
        }
    }

    fn commit(&mut self) -> Result<(), String> {
        let task = self.offered.take().ok_or("a commit of no offer")?;
        self.table.push(task);
        for watch in &mut self.open {
            watch.commits += 1;
        }
        Ok(())
    }

    // e is the call's, C and D are those of the table at this point.
    fn release(&mut self, number: u32, need: u32) -> Result<(), String> {
        let index = usize::try_from(number).expect("a number of 32 bits");
        let task = index.checked_sub(1).and_then(|index| self.table.get(index));
        let task = task.ok_or(format!("a release of no task, {number}"))?;
        self.open.push(Watch {
            number,
            runs: need,
            is_short: need < task.budget,
            slots: task.deadline,
            refused_slots: 0,
            offers: 0,
            commits: 0,
            is_added: index > self.started,
        });
        Ok(())
    }

    // An accepted finish closes the jobs released before it.
    fn finish(&mut self, number: u32) {
        self.kept.by_a_finish += self.close(|watch| watch.number == number);
    }

    // No late job, and no job still open after its D-th slot.
    fn slot(&mut self, printed: &Printed) -> Result<(), String> {
        if printed.late != 0 {
            return Err(format!("late jobs, {}", printed.late));
        }
        let mut short = 0;
        self.kept.by_running += self.close(|watch| {
            let closed = watch.is_closed_by(printed);
            short += u64::from(closed && watch.is_short);
            closed
        });
        self.kept.by_fewer_runs_than_c += short;
        match self.open.iter().find(|watch| watch.slots == 0) {
            Some(watch) => Err(format!("a job of task {} is not closed", watch.number)),
            None => Ok(()),
        }
    }

    // Takes out the jobs that are closed now, and gives their number.
    fn close(&mut self, is_closed: impl FnMut(&mut Watch) -> bool) -> u64 {
        let mut closed = 0;
        for watch in self.open.extract_if(.., is_closed) {
            closed += 1;
            self.kept.past_refused_slots += u64::from(watch.refused_slots > 0);
            self.kept.too_late_if_counted += u64::from(watch.refused_slots > watch.slots);
            self.kept.of_added_tasks += u64::from(watch.is_added);
            self.kept.past_offers += u64::from(watch.offers > 0);
            self.kept.past_commits += u64::from(watch.commits > 0);
        }
        closed
    }
}

impl Watch {
    // The e-th slot in which the task ran must also say that it finished.
    fn is_closed_by(&mut self, printed: &Printed) -> bool {
        self.slots -= 1;
        let ran = holds(printed.ran, self.number) && self.runs > 0;
        self.runs -= u32::from(ran);
        ran && self.runs == 0 && holds(printed.finished, self.number)
    }
}

// Whether a sum of 2 to the power (task number − 1) holds a task.
fn holds(sum: u32, number: u32) -> bool {
    sum.checked_shr(number - 1)
        .is_some_and(|rest| rest & 1 == 1)
}

fn numbers(answer: &str) -> Result<Printed, String> {
    let fields: Result<Vec<u32>, _> = answer.split(' ').map(str::parse).collect();
    match fields.as_deref() {
        Ok(&[ran, finished, late, _, ..]) => Ok(Printed {
            ran,
            finished,
            late,
        }),
        _ => Err(format!("no answer of a slot: {answer}")),
    }
}
