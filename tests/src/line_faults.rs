//! Faults in the lines of a log that is well formed (document 02, change 11): another
//! runner, one too few or too many, releases and finishes that the machine would refuse or
//! that stand a line too soon or too late, and tasks that the table lacks. A fault may leave
//! the log as it was, or one that is accepted.

use crate::audit::indexes;
use crate::log::{Line, Log};
use crate::logs::open_at;
use crate::random::Random;

// Every fault takes the number of the line, from 0.
type Fault = fn(&mut Random, &mut Log, usize);

const FAULTS: [Fault; 24] = [
    swap,
    swap,
    swap,
    drop_runner,
    drop_runner,
    add_idle,
    add_idle,
    add_runner,
    instead_of_one,
    release_more,
    release_more,
    release_and_finish,
    release_after_finish,
    finish_more,
    finish_more,
    finish_runner,
    absent_task,
    absent_task,
    move_releases,
    move_finishes,
    move_running,
    exchange,
    repeat_or_remove,
    any_value,
];

/// One fault in some line.
pub fn damage(random: &mut Random, log: &mut Log) {
    if log.lines.is_empty() {
        log.lines.push(Line::new(0, 0, random.pick(&[0, 1])));
    }
    let at = random.below(log.lines.len());
    random.pick(&FAULTS)(random, log, at);
}

// One of the tasks of a value, as a value.
fn one_of(random: &mut Random, value: u32) -> Option<u32> {
    let tasks = indexes(value);
    (!tasks.is_empty()).then(|| 1 << random.pick(&tasks))
}

fn idle(log: &Log, at: usize) -> u32 {
    open_at(log, at).unwrap_or(0) & !log.lines[at].ran
}

fn all_tasks(log: &Log) -> u32 {
    (0..log.table.len()).map(|index| 1 << index).sum()
}

// An idle open task runs in place of a runner, and may be one that is alike.
fn swap(random: &mut Random, log: &mut Log, at: usize) {
    let (idle, ran) = (idle(log, at), log.lines[at].ran);
    if let (Some(idle), Some(runner)) = (one_of(random, idle), one_of(random, ran)) {
        log.lines[at].ran = ran - runner + idle;
    }
}

fn drop_runner(random: &mut Random, log: &mut Log, at: usize) {
    let ran = log.lines[at].ran;
    log.lines[at].ran -= one_of(random, ran).unwrap_or(0);
}

fn add_idle(random: &mut Random, log: &mut Log, at: usize) {
    let idle = idle(log, at);
    log.lines[at].ran |= one_of(random, idle).unwrap_or(0);
}

// Any other task of the table, most of them closed.
fn add_runner(random: &mut Random, log: &mut Log, at: usize) {
    let others = all_tasks(log) & !log.lines[at].ran;
    log.lines[at].ran |= one_of(random, others).unwrap_or(0);
}

// Any other task of the table in place of a runner.
fn instead_of_one(random: &mut Random, log: &mut Log, at: usize) {
    drop_runner(random, log, at);
    add_runner(random, log, at);
}

// A release too soon, or one that would have been taken.
fn release_more(random: &mut Random, log: &mut Log, at: usize) {
    let others = all_tasks(log) & !log.lines[at].released;
    log.lines[at].released |= one_of(random, others).unwrap_or(0);
}

// Of any task: one that is too soon would change nothing else in the log.
fn release_and_finish(random: &mut Random, log: &mut Log, at: usize) {
    let open = open_at(log, at).unwrap_or(0);
    if let Some(task) = one_of(random, all_tasks(log) & !open) {
        log.lines[at].released |= task;
        log.lines[at].finished |= task;
    }
}

// In the line after a finish of the task, whose gap is not over.
fn release_after_finish(random: &mut Random, log: &mut Log, at: usize) {
    let at = with_some(log, at, |line| line.finished);
    let finished = log.lines[at].finished;
    let Some(next) = log.lines.get_mut(at + 1) else {
        return;
    };
    if let Some(task) = one_of(random, finished) {
        next.released |= task;
        next.finished |= task;
    }
}

// A finish of any task, open or closed.
fn finish_more(random: &mut Random, log: &mut Log, at: usize) {
    let others = all_tasks(log) & !log.lines[at].finished;
    log.lines[at].finished |= one_of(random, others).unwrap_or(0);
}

// A finish of a task that runs in the same line.
fn finish_runner(random: &mut Random, log: &mut Log, at: usize) {
    let ran = log.lines[at].ran;
    log.lines[at].finished |= one_of(random, ran).unwrap_or(0);
}

// The first task that the table lacks, the last, or any.
fn absent_task(random: &mut Random, log: &mut Log, at: usize) {
    let absent = !all_tasks(log);
    let lowest = absent & absent.wrapping_neg();
    let any = one_of(random, absent).unwrap_or(0);
    let task = random.pick(&[lowest, absent & 1 << 31, any, absent]);
    let line = &mut log.lines[at];
    let values = [&mut line.released, &mut line.finished, &mut line.ran];
    let [released, finished, ran] = values;
    match random.below(3) {
        0 => *released |= task,
        1 => *finished |= task,
        _ => *ran |= task,
    }
}

// The line before or the line after, if there is one.
fn neighbour(random: &mut Random, log: &Log, at: usize) -> usize {
    let other = if random.one_in(2) {
        at + 1
    } else {
        at.saturating_sub(1)
    };
    other.min(log.lines.len() - 1)
}

// A line with something in the column, if any, from the drawn one on.
fn with_some(log: &Log, at: usize, column: fn(&Line) -> u32) -> usize {
    let lines = log.lines.iter().enumerate().skip(at);
    let mut found = lines.filter(|(_, line)| column(line) != 0);
    found.next().map_or(at, |(index, _)| index)
}

fn move_releases(random: &mut Random, log: &mut Log, at: usize) {
    let at = with_some(log, at, |line| line.released);
    let to = neighbour(random, log, at);
    if let Some(task) = one_of(random, log.lines[at].released) {
        log.lines[at].released -= task;
        log.lines[to].released |= task;
    }
}

fn move_finishes(random: &mut Random, log: &mut Log, at: usize) {
    let at = with_some(log, at, |line| line.finished);
    let to = neighbour(random, log, at);
    if let Some(task) = one_of(random, log.lines[at].finished) {
        log.lines[at].finished -= task;
        log.lines[to].finished |= task;
    }
}

fn move_running(random: &mut Random, log: &mut Log, at: usize) {
    let to = neighbour(random, log, at);
    let ran = log.lines[at].ran;
    log.lines[at].ran = log.lines[to].ran;
    log.lines[to].ran = ran;
}

fn exchange(random: &mut Random, log: &mut Log, at: usize) {
    let to = neighbour(random, log, at);
    log.lines.swap(at, to);
}

fn repeat_or_remove(random: &mut Random, log: &mut Log, at: usize) {
    if random.one_in(2) {
        log.lines.insert(at, log.lines[at]);
    } else {
        log.lines.remove(at);
    }
}

// A small value, one of the table, or any of 32 bits.
fn any_value(random: &mut Random, log: &mut Log, at: usize) {
    let any = random.between(0, u32::MAX);
    let value = random.pick(&[
        0,
        1,
        2,
        3,
        all_tasks(log),
        any & all_tasks(log),
        any,
        u32::MAX,
    ]);
    let line = &mut log.lines[at];
    match random.below(4) {
        0 => line.released = value,
        1 => line.finished = value,
        2 => line.ran = value,
        _ => *line = Line::new(value, value, value),
    }
}
