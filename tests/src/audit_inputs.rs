//! Random inputs of an audit (docs/HANDBOOK.md, "Auditing a log"): whole ones, whose logs go
//! by the rules, and ones with faults in their lines, in their text, in the table or in the
//! lines around it.

use crate::line_faults;
use crate::log::{Log, input};
use crate::log_faults;
use crate::logs::{self, Dispatcher};
use crate::random::Random;
use crate::reading::{LINE_END, MOST_BYTES};
use crate::tables;
use crate::tasks::{MOST_TASKS, Task};
use crate::texts::{self, ORDERS, write};

/// An input, with its log if that goes by the rules and nothing is damaged.
pub struct Case {
    pub text: Vec<u8>,
    pub whole: Option<Log>,
}

type Fault = fn(&mut Random, &Log) -> Vec<u8>;

const AROUND: [Fault; 10] = [
    odd_cores,
    odd_cores,
    odd_first_line,
    odd_table,
    odd_table,
    long_table,
    long_table,
    odd_log_line,
    two_log_lines,
    cut,
];

const ODD_CORES: [u32; 9] = [
    0,
    17,
    18,
    32,
    256 + 2,
    65_536 + 2,
    1 << 31,
    u32::MAX - 1,
    u32::MAX,
];

const FIRST_LINES: [&[u8]; 22] = [
    b"",
    b"\n",
    b"CORES\n",
    b"CORES \n",
    b"CORES 02\n",
    b"CORES 00\n",
    b"CORES 2 \n",
    b"CORES  2\n",
    b" CORES 2\n",
    b"CORES 2\r\n",
    b"CORES 2 2\n",
    b"CORES -2\n",
    b"CORES x\n",
    b"CORES\t2\n",
    b"cores 2\n",
    b"CORE 2\n",
    b"CORES 4294967296\n",
    b"CORES 10000000000\n",
    b"CORES 00000000002\n",
    b"LOG\n",
    b"\nCORES 2\n",
    b"CORES 2",
];

const LOG_LINES: [&[u8]; 10] = [
    b"", b"LOG", b"LOG \n", b" LOG\n", b"LOG\r\n", b"log\n", b"LOGS\n", b"CALLS\n", b"\nLOG\n",
    b"LO\nG\n",
];

/// The input with this index under this seed.
pub fn case(seed: u64, index: u64) -> Case {
    let mut random = Random::new(seed, index);
    let dispatcher = random.pick(&[Dispatcher::Own, Dispatcher::Foreign, Dispatcher::Foreign]);
    let mut log = logs::log(&mut random, dispatcher);
    let text = match random.below(16) {
        0..=3 => {
            let text = written(&mut random, &log, &log.text());
            let whole = Some(log);
            return Case { text, whole };
        }
        4..=9 => of_lines(&mut random, &mut log),
        10..=12 => of_text(&mut random, &log),
        13 => of_both(&mut random, &mut log),
        _ => random.pick(&AROUND)(&mut random, &log),
    };
    Case { text, whole: None }
}

// The table's columns in any order.
fn written(random: &mut Random, log: &Log, text: &[u8]) -> Vec<u8> {
    input(log.cores, &write(&log.table, random.pick(&ORDERS)), text)
}

fn of_lines(random: &mut Random, log: &mut Log) -> Vec<u8> {
    for _ in 0..=random.pick(&[0, 0, 0, 1]) {
        line_faults::damage(random, log);
    }
    written(random, log, &log.text())
}

fn of_text(random: &mut Random, log: &Log) -> Vec<u8> {
    let mut text = log.text();
    for _ in 0..=random.pick(&[0, 0, 0, 1]) {
        log_faults::damage(random, &mut text);
    }
    written(random, log, &text)
}

// A line that offends, and a broken one before or after it.
fn of_both(random: &mut Random, log: &mut Log) -> Vec<u8> {
    line_faults::damage(random, log);
    of_text(random, log)
}

// m outside 1 to 16, half of the time with a table that is refused too.
fn odd_cores(random: &mut Random, log: &Log) -> Vec<u8> {
    let table = match random.one_in(2) {
        true => any_table(random),
        false => write(&log.table, ORDERS[0]),
    };
    let mut text = log.text();
    if random.one_in(3) {
        log_faults::damage(random, &mut text);
    }
    input(random.pick(&ODD_CORES), &table, &text)
}

fn odd_first_line(random: &mut Random, log: &Log) -> Vec<u8> {
    let whole = log.input();
    let first = format!("CORES {}\n", log.cores).len();
    [random.pick(&FIRST_LINES), &whole[first..]].concat()
}

// A text of the reader's checks, most of them refused.
fn any_table(random: &mut Random) -> Vec<u8> {
    match random.below(8) {
        0 => write(&[], random.pick(&ORDERS)),
        1 => Vec::new(),
        2 => {
            let tasks = MOST_TASKS + random.below(4);
            let table: Vec<Task> = tables::of_tasks(random, tasks);
            write(&table, random.pick(&ORDERS))
        }
        3 => unfit_table(random),
        _ => texts::text(random.bits(), random.bits()),
    }
}

// Task k breaks the limits.
fn unfit_table(random: &mut Random) -> Vec<u8> {
    let mut table = tables::valid(random);
    let k = random.below(table.len());
    table[k].budget = random.pick(&[0, table[k].deadline + 1]);
    write(&table, random.pick(&ORDERS))
}

fn odd_table(random: &mut Random, log: &Log) -> Vec<u8> {
    input(log.cores, &any_table(random), &log.text())
}

// About 4,096 bytes or far more, with or without the line LOG.
fn long_table(random: &mut Random, log: &Log) -> Vec<u8> {
    let mut table = write(&log.table, random.pick(&ORDERS));
    let length = match random.below(8) {
        0 => (1 << 16) + table.len(),
        1 => 2 * MOST_BYTES,
        2 | 3 => MOST_BYTES - 5 + random.below(9),
        _ => MOST_BYTES + random.below(2),
    };
    let filling = random.pick(&[&b"\n"[..], b" ", b"1", b"1 1 1\n", b"LOG \n", b"xLOG\n"]);
    let missing = length.saturating_sub(table.len());
    table.extend(filling.iter().cycle().take(missing));
    if random.one_in(2) && !table.is_empty() {
        let last = table.len() - 1;
        table[last] = LINE_END;
    }
    let end: Vec<u8> = match random.below(4) {
        0 => Vec::new(),
        1 => b"LOG".to_vec(),
        _ => [b"LOG\n", &log.text()[..]].concat(),
    };
    let first = format!("CORES {}\n", log.cores);
    [first.as_bytes(), &table, &end].concat()
}

fn odd_log_line(random: &mut Random, log: &Log) -> Vec<u8> {
    let first = format!("CORES {}\n", log.cores);
    let table = write(&log.table, random.pick(&ORDERS));
    let line = random.pick(&LOG_LINES);
    let text = match line == b"LOG" || random.one_in(3) {
        true => Vec::new(),
        false => log.text(),
    };
    [first.as_bytes(), &table, line, &text].concat()
}

// A second line LOG at once, after the names line, at the log's end or in the table.
fn two_log_lines(random: &mut Random, log: &Log) -> Vec<u8> {
    let mut text = log.input();
    let ends = (0..text.len()).filter(|index| text[*index] == LINE_END);
    let ends: Vec<usize> = ends.map(|index| index + 1).collect();
    let at = match random.below(2) {
        0 => random.pick(&ends),
        _ => text.len(),
    };
    text.splice(at..at, b"LOG\n".iter().copied());
    if random.one_in(3) {
        text.extend(log.text());
    }
    text
}

// The input ends anywhere, in the table or soon after it as often as not.
fn cut(random: &mut Random, log: &Log) -> Vec<u8> {
    let mut text = log.input();
    let near = (text.len() - log.text().len() + 24).min(text.len());
    let lengths = [text.len(), near];
    let most = random.pick(&lengths);
    let kept = random.below(most + 1);
    text.truncate(kept);
    text
}
