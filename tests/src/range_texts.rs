//! Texts of ranges, well formed and damaged, and of ranges that number 16 or 5 refuses
//! (document 02, change 9).

use crate::any_ranges::{around, valid};
use crate::random::Random;
use crate::ranges::{NAMES_LINE, RangedTask, write};
use crate::tasks::{LONGEST_PERIOD, MOST_TASKS};
use crate::{tables, texts};

const FILLINGS: [&[u8]; 6] = [b"\n", b" ", b"1", b"0", b"1 1 1 1 1\n", b"x"];

const NAMES: [&[u8]; 5] = [
    b"LEAST_PERIOD",
    b"MOST_PERIOD",
    b"LEAST_BUDGET",
    b"MOST_BUDGET",
    b"DEADLINE",
];

// Above the limit, and still a value of 7 digits.
const TOO_LONG: [u32; 3] = [LONGEST_PERIOD + 1, LONGEST_PERIOD + 2, 9_999_999];

/// The text with this index under this seed.
pub fn text(seed: u64, index: u64) -> Vec<u8> {
    let mut random = Random::new(seed, index);
    match random.below(24) {
        0..=11 => write(&valid(&mut random)),
        12..=14 => damaged(&mut random),
        15..=19 => unfit(&mut random),
        20 | 21 => crowded(&mut random),
        22 => long(&mut random),
        _ => short(&mut random),
    }
}

// One to three damages, so that the order of the refusals is tried too.
fn damaged(random: &mut Random) -> Vec<u8> {
    let mut text = write(&valid(random));
    for _ in 0..=random.pick(&[0, 0, 0, 1, 2]) {
        match random.below(8) {
            0 => other_names(random, &mut text),
            1 => add_another(random, &mut text),
            _ => texts::damage(random, &mut text),
        }
    }
    text
}

// The names in another order, one of them twice, or those of a table.
fn other_names(random: &mut Random, text: &mut Vec<u8>) {
    let mut names = NAMES;
    let (one, other) = (random.below(NAMES.len()), random.below(NAMES.len()));
    match random.below(4) {
        0 => names[one] = NAMES[other],
        _ => names.swap(one, other),
    }
    let mut line = names.join(&b' ');
    if random.one_in(6) {
        line = b"PERIOD BUDGET DEADLINE".to_vec();
    }
    line.push(b'\n');
    if text.starts_with(NAMES_LINE) {
        text.splice(..NAMES_LINE.len(), line);
    }
}

// Other ranges after these, with or without their names line.
fn add_another(random: &mut Random, text: &mut Vec<u8>) {
    let other = write(&valid(random));
    let from = random.pick(&[0, NAMES_LINE.len()]);
    text.extend_from_slice(&other[from..]);
}

// One or two tasks that 16 or 5 refuses, or both in one, sometimes with a damage too.
fn unfit(random: &mut Random) -> Vec<u8> {
    let mut ranges = valid(random);
    spoil(random, &mut ranges);
    let mut text = write(&ranges);
    if random.one_in(3) {
        texts::damage(random, &mut text);
    }
    text
}

fn spoil(random: &mut Random, ranges: &mut [RangedTask]) {
    let tasks = ranges.len();
    let one = random.below(tasks);
    let other = (one + random.below(tasks)) % tasks;
    match random.below(9) {
        0 | 1 => break_order(random, &mut ranges[one]),
        2 | 3 => break_limits(random, &mut ranges[one]),
        4 => {
            break_limits(random, &mut ranges[one]);
            break_order(random, &mut ranges[one]);
        }
        5 => {
            break_order(random, &mut ranges[one]);
            break_order(random, &mut ranges[other]);
        }
        _ => {
            break_limits(random, &mut ranges[one]);
            break_order(random, &mut ranges[other]);
        }
    }
}

// A least above its most, of the period, of the budget or of both. Where the two are apart
// they may change places.
fn break_order(random: &mut Random, task: &mut RangedTask) {
    let which = random.below(3);
    if which != 0 {
        let pair = [task.least_period, task.most_period];
        [task.least_period, task.most_period] = out_of_order(random, pair);
    }
    if which != 1 {
        let pair = [task.least_budget, task.most_budget];
        [task.least_budget, task.most_budget] = out_of_order(random, pair);
    }
}

fn out_of_order(random: &mut Random, [least, most]: [u32; 2]) -> [u32; 2] {
    match random.below(3) {
        0 if least < most => [most, least],
        1 if least > 0 => [least, least - 1],
        _ => [most + 1, most],
    }
}

// Each way to break 1 ≤ C ≤ D ≤ T ≤ 1,000,000: at one of the two corners, or at both.
fn break_limits(random: &mut Random, task: &mut RangedTask) {
    let (above, below) = (task.deadline + 1, task.deadline.saturating_sub(1));
    let too_long = random.pick(&TOO_LONG);
    match random.below(10) {
        0 => task.least_budget = 0,
        1 => (task.least_budget, task.most_budget) = (0, 0),
        2 => task.most_budget = above,
        3 => (task.least_budget, task.most_budget) = (above, above),
        4 => task.least_period = below,
        5 => (task.least_period, task.most_period) = (below, below),
        6 => task.most_period = too_long,
        7 => (task.least_period, task.most_period) = (too_long, too_long),
        8 => task.deadline = task.least_period + 1,
        _ => task.deadline = task.most_budget.saturating_sub(1),
    }
}

// About 32 value lines, with or without something after the last.
fn crowded(random: &mut Random) -> Vec<u8> {
    let tasks = MOST_TASKS - 1 + random.below(4);
    let table = tables::of_tasks(random, tasks);
    let mut ranges = around(random, &table);
    if random.one_in(2) {
        spoil(random, &mut ranges);
    }
    let mut text = write(&ranges);
    texts::disturb(random, &mut text);
    text
}

fn long(random: &mut Random) -> Vec<u8> {
    let mut text = write(&valid(random));
    texts::lengthen(random, &mut text, &FILLINGS);
    text
}

fn short(random: &mut Random) -> Vec<u8> {
    let mut text = write(&[]);
    texts::after_names(random, &mut text);
    text
}
