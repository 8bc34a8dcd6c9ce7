//! Cheaper tables stay admitted (document 02, change 8): generated tables near the
//! boundaries of both tests, and each after steps that make it cheaper, through the C entry
//! and the programs of both tests. SEED and TABLES change which and how many; some 12,000
//! meet every event. Then tables worked out by hand.

use edzl_tests::answers::{Answers, WAYS};
use edzl_tests::boundary_lines::{self, EVENTS};
use edzl_tests::cheaper::{self, Changed, OTHERS, SINGLE, Step};
use edzl_tests::random::Random;
use edzl_tests::settings::{SEED, number};
use edzl_tests::tally::{self, Tally};
use edzl_tests::tasks::Task;
use edzl_tests::texts::{ORDERS, write};
use edzl_tests::{host, program};

const TABLES: u64 = 18_000;

// One table in so many goes through the programs.
const PROGRAM_STRIDE: u64 = 60;

// A generated table, and what is answered on it.
struct Start {
    index: u64,
    random: Random,
    table: Vec<Task>,
    answers: Answers,
}

impl Start {
    fn new(seed: u64, index: u64) -> Result<Start, String> {
        let mut random = Random::new(seed, index);
        let table = cheaper::table(&mut random);
        let answers = answers(&mut random, &table, index)?;
        Ok(Start {
            index,
            random,
            table,
            answers,
        })
    }

    // None where the step cannot be taken.
    fn after(&mut self, step: Step) -> Result<Option<Trial<'_>>, String> {
        let Some(changed) = step.take(&mut self.random, &self.table) else {
            return Ok(None);
        };
        let answers = match changed.table == self.table {
            true => self.answers.clone(),
            false => answers(&mut self.random, &changed.table, self.index)?,
        };
        Ok(Some(Trial {
            step,
            start: self,
            changed,
            answers,
        }))
    }
}

// Fails where the table is refused and not judged.
fn answers(random: &mut Random, table: &[Task], index: u64) -> Result<Answers, String> {
    let text = write(table, random.pick(&ORDERS));
    let answers = match index.is_multiple_of(PROGRAM_STRIDE) {
        true => Answers::of_all(&text, table.len()),
        false => Answers::of_entry(&text),
    };
    answers.map_err(|failure| format!("{failure}: {table:?}"))
}

// The table after a step, and what is answered on it.
struct Trial<'a> {
    step: Step,
    start: &'a Start,
    changed: Changed,
    answers: Answers,
}

impl Trial<'_> {
    // The m on which the table was admitted or not before the step, and is or is not
    // after it, by this way.
    fn verdicts(&self, way: usize, wanted: (bool, bool)) -> Vec<u32> {
        let [before, after] = [&self.start.answers, &self.answers].map(|all| &all.admitted[way]);
        let pairs = self.changed.beside(before, after);
        let so = pairs.filter(|(_, before, after)| (*before, *after) == wanted);
        so.map(|(cores, _, _)| cores).collect()
    }

    // The m on which COUNT before and after the step are so.
    fn counts(&self, wanted: fn(u32, u32) -> bool) -> Vec<u32> {
        let [before, after] = [&self.start.answers, &self.answers].map(|all| &all.counts);
        let pairs = self.changed.beside(before, after);
        let so = pairs.filter(|(_, before, after)| wanted(*before, *after));
        so.map(|(cores, _, _)| cores).collect()
    }

    // Every admission is kept, and no COUNT is larger, also where the table is not admitted.
    fn keeps(&self) -> Result<(), String> {
        for (way, name) in WAYS.iter().enumerate() {
            if let Some(cores) = self.verdicts(way, (true, false)).first() {
                return Err(self.failure(&format!("{name} admitted it on m = {cores}")));
            }
        }
        match self.counts(|before, after| before < after).first() {
            Some(cores) => Err(self.failure(&format!("COUNT was smaller on m = {cores}"))),
            None => Ok(()),
        }
    }

    fn is_cheaper(&self) -> bool {
        self.changed.is_cheaper_than(&self.start.table)
    }

    fn failure(&self, what: &str) -> String {
        let Start { table, answers, .. } = self.start;
        format!(
            "before {}, {what}\n--- before\n{table:?}\n{answers:?}\n--- after\n{:?}\n{:?}",
            self.step.name(),
            self.changed,
            self.answers
        )
    }
}

fn tried(step: Step) -> String {
    format!("tables after {}", step.name())
}

fn kept(way: &str, step: Step) -> String {
    format!("{way}: admitted before and after {}", step.name())
}

fn gained(way: &str, step: Step) -> String {
    format!("{way}: admitted only after {}", step.name())
}

fn lost(way: &str, step: Step) -> String {
    format!("{way}: admitted only before {}", step.name())
}

fn smaller(step: Step) -> String {
    format!("verdict: COUNT smaller after {}", step.name())
}

fn larger(step: Step) -> String {
    format!("verdict: COUNT larger after {}", step.name())
}

fn add(tally: &mut Tally, name: String, times: usize) {
    if times > 0 {
        let times = u64::try_from(times).expect("a few times");
        *tally.entry(name).or_default() += times;
    }
}

// Each single step and several ones: no admission is lost.
fn make_cheaper(start: &mut Start, tally: &mut Tally) -> Result<(), String> {
    for step in SINGLE.into_iter().chain([Step::Several]) {
        let Some(trial) = start.after(step)? else {
            continue;
        };
        if !trial.is_cheaper() {
            return Err(trial.failure("and not cheaper after it"));
        }
        trial.keeps()?;
        add(tally, tried(step), 1);
        for (way, name) in WAYS.iter().enumerate() {
            let [both, after] =
                [(true, true), (false, true)].map(|wanted| trial.verdicts(way, wanted).len());
            add(tally, kept(name, step), both);
            add(tally, gained(name, step), after);
        }
        let fallen = trial.counts(|before, after| before > after);
        add(tally, smaller(step), fallen.len());
    }
    Ok(())
}

// The tables are near both boundaries, most of them can take each step, and each step
// changes some COUNT and some verdicts. The step that changes fewest is a period raised by
// one.
fn require_cheaper(tally: &Tally, tables: u64) {
    let least_of = |name: &str, least: u64, tables: u64| {
        let times = tally.get(name).copied().unwrap_or(0);
        let enough = 1_000 * times >= least * tables;
        assert!(enough, "{name}: {times} with {tables} tables");
    };
    let programs = tables.div_ceil(PROGRAM_STRIDE);
    for (name, least, _) in EVENTS {
        least_of(name, least, programs);
    }
    for step in SINGLE.into_iter().chain([Step::Several]) {
        least_of(&tried(step), 750, tables);
        for (way, tables) in WAYS.iter().zip([programs, programs, tables]) {
            least_of(&kept(way, step), 1_000, tables);
            least_of(&gained(way, step), 2, tables);
        }
        least_of(&smaller(step), 10, programs);
    }
}

#[test]
fn generated_tables_made_cheaper() {
    let (seed, tables) = (number("SEED", SEED), number("TABLES", TABLES));
    let tally = tally::of_all(seed, tables, |index, tally| {
        let mut start = Start::new(seed, index)?;
        for name in boundary_lines::met(&start.table, &start.answers) {
            add(tally, name.to_string(), 1);
        }
        make_cheaper(&mut start, tally)
    });
    let title = format!("{tables} tables made cheaper, seed {seed}");
    tally::report(&title, &tally);
    require_cheaper(&tally, tables);
}

// Each other step: what is lost, which the check of the cheaper ones must see.
fn take_other_steps(start: &mut Start, tally: &mut Tally) -> Result<(), String> {
    for step in OTHERS {
        let Some(trial) = start.after(step)? else {
            continue;
        };
        if trial.is_cheaper() {
            return Err(trial.failure("and cheaper after it"));
        }
        let risen = trial.counts(|before, after| before < after);
        let mut losses = risen.len();
        add(tally, larger(step), risen.len());
        for (way, name) in WAYS.iter().enumerate() {
            let cores = trial.verdicts(way, (true, false));
            losses += cores.len();
            add(tally, lost(name, step), cores.len());
        }
        if trial.keeps().is_ok() != (losses == 0) {
            return Err(trial.failure("and the check does not see the losses"));
        }
    }
    Ok(())
}

// Each of the other steps loses admissions of the same tables by every way, and makes some
// COUNT larger.
#[test]
fn generated_tables_after_other_steps() {
    let (seed, tables) = (number("SEED", SEED), number("TABLES", TABLES));
    let tally = tally::of_all(seed, tables, |index, tally| {
        take_other_steps(&mut Start::new(seed, index)?, tally)
    });
    let title = format!("{tables} tables after other steps, seed {seed}");
    tally::report(&title, &tally);
    let names = OTHERS.iter().flat_map(|step| {
        let lost = WAYS.iter().map(|way| lost(way, *step));
        lost.chain([larger(*step)])
    });
    tally::require(&tally, names.collect());
}

const fn task(period: u32, budget: u32, deadline: u32) -> Task {
    Task::new(period, budget, deadline)
}

// The line of `verdict` on m cores.
fn check_window(table: &[Task], cores: usize, expected: &str) {
    let output = program::verdict_output(&write(table, ORDERS[0]));
    let printed = String::from_utf8(output).expect("lines of text");
    assert_eq!(printed.lines().nth(cores), Some(expected), "{table:?}");
}

// The line of `sharper` on 1 core, and the answer of the C entry.
fn check_slack(table: &[Task], expected: &str, admitted: u32) {
    let text = write(table, ORDERS[0]);
    let printed = String::from_utf8(program::sharper_output(&text)).expect("lines of text");
    assert_eq!(printed.lines().nth(1), Some(expected), "{table:?}");
    assert_eq!(host::admit(&text, 1), admitted, "{table:?}");
}

// Task 1 has no spare and counts always. Task 3 sees one job of each of the others in 4
// slots, with a spare of 3, and two of each in 5 slots, with a spare of 4.
#[test]
fn a_deadline_raised_loses_the_window_test() {
    let others = [task(4, 1, 1), task(4, 1, 4)];
    check_window(&[others[0], others[1], task(5, 1, 4)], 1, "1 1 1");
    check_window(&[others[0], others[1], task(5, 1, 5)], 1, "1 2 0");
}

// Task 2 sees two jobs of task 1 in 4 slots, with a spare of 3, and as many in 3, with a
// spare of 2.
#[test]
fn a_deadline_lowered_loses_the_window_test() {
    check_window(&[task(2, 1, 1), task(4, 1, 4)], 1, "1 1 1");
    check_window(&[task(2, 1, 1), task(4, 1, 3)], 1, "1 2 0");
}

// Task 1 has a slack of 3 from round 1 on. So in round 2 task 3 sees one slot of it in 4 − 3,
// and one of task 2 in 4, with a spare of 3: its sum, 3 in round 1, does not reach any
// more. With the deadline 5 it sees two of each, with a spare of 4, in every round.
#[test]
fn a_deadline_raised_loses_the_slack_test() {
    let others = [task(8, 2, 8), task(4, 1, 1)];
    check_slack(&[others[0], others[1], task(8, 1, 4)], "1 3 1", 1);
    check_slack(&[others[0], others[1], task(8, 1, 5)], "1 2 0", 0);
}

// Task 1 sees two slots of task 2 in 5, with a spare of 3, and as many in 4, with a spare
// of 2. Task 2 has no spare, and so never a slack.
#[test]
fn a_deadline_lowered_loses_the_slack_test() {
    check_slack(&[task(5, 2, 5), task(3, 1, 1)], "1 2 1", 1);
    check_slack(&[task(5, 2, 4), task(3, 1, 1)], "1 1 0", 0);
}

// Document 01's table on 2 cores. Task 3 with a spare of 2 has a sum of 2 + 2, which is
// 2·2; with a spare of 3 one of 2 + 3, below 2·3.
#[test]
fn a_budget_lowered_lowers_count() {
    let others = [task(4, 1, 4), task(6, 2, 5)];
    check_window(&[others[0], others[1], task(10, 6, 8)], 2, "2 1 1");
    check_window(&[others[0], others[1], task(10, 5, 8)], 2, "2 0 1");
}
