//! Texts of tables, well formed and damaged (document 01, "The table as text").

use std::ops::Range;

use crate::random::Random;
use crate::reading::{LINE_END, MOST_BYTES, NAMES};
use crate::tables;
use crate::tasks::{LONGEST_PERIOD, MOST_TASKS, Task};

/// The columns of a text: each entry is 0 for period, 1 for budget, 2 for deadline.
pub const ORDERS: [[usize; 3]; 6] = [
    [0, 1, 2],
    [0, 2, 1],
    [1, 0, 2],
    [1, 2, 0],
    [2, 0, 1],
    [2, 1, 0],
];

// Every damage takes the whole text, also one that keeps its length.
type Damage = fn(&mut Random, &mut Vec<u8>);

const DAMAGES: [Damage; 14] = [
    change_byte,
    change_byte,
    cut,
    double_part,
    add_another,
    insert_byte,
    insert_byte,
    remove_byte,
    remove_separator,
    lead_with_zeros,
    odd_value,
    odd_name,
    lower_case,
    trail,
];

const ODD_BYTES: [u8; 16] = *b" \n\r\t0159\0-+.,Px\xff";

const ODD_VALUES: [&[u8]; 16] = [
    b"",
    b"0",
    b"00",
    b"01",
    b"0000001",
    b"00000001",
    b"-1",
    b"+1",
    b"1.0",
    b"1e3",
    b"1000000",
    b"1000001",
    b"9999999",
    b"10000000",
    b"99999999",
    b"4294967297",
];

const ODD_NAMES: [&[u8]; 8] = [
    b"",
    b"PERIOD",
    b"BUDGET",
    b"DEADLINE",
    b"PERIODS",
    b"PERIO",
    b"Period",
    b"SLOT",
];

const FILLINGS: [&[u8]; 6] = [b"\n", b" ", b"1", b"0", b"1 1 1\n", b"x"];

/// The text with this index under this seed.
pub fn text(seed: u64, index: u64) -> Vec<u8> {
    let mut random = Random::new(seed, index);
    match random.below(20) {
        0..=10 => valid(&mut random),
        11..=15 => damaged(&mut random),
        16 => unfit(&mut random),
        17 => crowded(&mut random),
        18 => long(&mut random),
        _ => short(&mut random),
    }
}

/// The well-formed text of a table, its columns in this order.
pub fn write(table: &[Task], order: [usize; 3]) -> Vec<u8> {
    let mut text = order.map(|column| NAMES[column]).join(&b' ');
    text.push(LINE_END);
    for task in table {
        let values = [task.period, task.budget, task.deadline];
        let [first, second, third] = order.map(|column| values[column]);
        text.extend(format!("{first} {second} {third}\n").bytes());
    }
    text
}

fn valid(random: &mut Random) -> Vec<u8> {
    let table = tables::valid(random);
    write(&table, random.pick(&ORDERS))
}

// One to three damages, so that the order of the refusals is tried too.
fn damaged(random: &mut Random) -> Vec<u8> {
    let mut text = valid(random);
    for _ in 0..=random.pick(&[0, 0, 0, 1, 2]) {
        damage(random, &mut text);
    }
    text
}

// One task just outside 1 ≤ C ≤ D ≤ T ≤ 1,000,000, sometimes with a damage too.
fn unfit(random: &mut Random) -> Vec<u8> {
    let mut table = tables::valid(random);
    let k = random.below(table.len());
    let task = &mut table[k];
    match random.below(4) {
        0 => task.budget = 0,
        1 => task.budget = task.deadline + 1,
        2 => task.deadline = task.period + 1,
        _ => task.period = LONGEST_PERIOD + 1,
    }
    let mut text = write(&table, random.pick(&ORDERS));
    if random.one_in(3) {
        damage(random, &mut text);
    }
    text
}

/// One damage, of any text.
pub fn damage(random: &mut Random, text: &mut Vec<u8>) {
    random.pick(&DAMAGES)(random, text);
}

// About 32 value lines, with or without something after the last.
fn crowded(random: &mut Random) -> Vec<u8> {
    let tasks = MOST_TASKS - 1 + random.below(4);
    let table = tables::of_tasks(random, tasks);
    let mut text = write(&table, random.pick(&ORDERS));
    disturb(random, &mut text);
    text
}

/// Sometimes something after the last line, and sometimes an odd value.
pub fn disturb(random: &mut Random, text: &mut Vec<u8>) {
    if random.one_in(3) {
        trail(random, text);
    }
    if random.one_in(3) {
        odd_value(random, text);
    }
}

fn long(random: &mut Random) -> Vec<u8> {
    let mut text = valid(random);
    lengthen(random, &mut text, &FILLINGS);
    text
}

/// Lengths around 4,096, and lengths whose low 16 bits are a small text's.
pub fn lengthen(random: &mut Random, text: &mut Vec<u8>, fillings: &[&[u8]]) {
    let length = match random.below(8) {
        0 => (1 << 16) + text.len(),
        1 => 2 * MOST_BYTES,
        _ => MOST_BYTES - 3 + random.below(7),
    };
    let filling = random.pick(fillings);
    let missing = length - text.len();
    text.extend(filling.iter().cycle().take(missing));
    if random.one_in(4) {
        odd_name(random, text);
    }
}

fn short(random: &mut Random) -> Vec<u8> {
    let mut text = write(&[], random.pick(&ORDERS));
    after_names(random, &mut text);
    text
}

/// A names line gets little or nothing after it, or a few odd bytes in its place.
pub fn after_names(random: &mut Random, text: &mut Vec<u8>) {
    match random.below(4) {
        0 => {}
        1 => trail(random, text),
        2 => cut(random, text),
        _ => {
            *text = (0..random.below(8))
                .map(|_| random.pick(&ODD_BYTES))
                .collect()
        }
    }
}

// A place between two bytes, or before the first or after the last.
fn gap(random: &mut Random, text: &[u8]) -> usize {
    random.below(text.len() + 1)
}

// An odd byte most of the time, any byte otherwise.
fn any_byte(random: &mut Random) -> u8 {
    let [byte, ..] = random.bits().to_le_bytes();
    if random.one_in(4) {
        byte
    } else {
        random.pick(&ODD_BYTES)
    }
}

// The bytes of the field at or before some place.
fn any_field(random: &mut Random, text: &[u8]) -> Range<usize> {
    let at = gap(random, text);
    let before = text[..at].iter().rposition(is_separator);
    let after = text[at..].iter().position(is_separator);
    before.map_or(0, |index| index + 1)..after.map_or(text.len(), |index| at + index)
}

fn is_separator(byte: &u8) -> bool {
    *byte == b' ' || *byte == LINE_END
}

#[allow(clippy::ptr_arg)]
fn change_byte(random: &mut Random, text: &mut Vec<u8>) {
    if !text.is_empty() {
        let at = random.below(text.len());
        text[at] = any_byte(random);
    }
}

fn cut(random: &mut Random, text: &mut Vec<u8>) {
    text.truncate(gap(random, text));
}

fn double_part(random: &mut Random, text: &mut Vec<u8>) {
    let (one, other) = (gap(random, text), gap(random, text));
    let part = text[one.min(other)..one.max(other)].to_vec();
    let at = one.max(other);
    text.splice(at..at, part);
}

// The other text comes whole or without its names line.
fn add_another(random: &mut Random, text: &mut Vec<u8>) {
    let other = valid(random);
    let names = write(&[], ORDERS[0]).len();
    let from = random.pick(&[0, names]);
    text.extend_from_slice(&other[from..]);
}

fn insert_byte(random: &mut Random, text: &mut Vec<u8>) {
    let at = gap(random, text);
    text.insert(at, any_byte(random));
}

fn remove_byte(random: &mut Random, text: &mut Vec<u8>) {
    if !text.is_empty() {
        text.remove(random.below(text.len()));
    }
}

fn remove_separator(random: &mut Random, text: &mut Vec<u8>) {
    let end = any_field(random, text).end;
    if end < text.len() {
        text.remove(end);
    }
}

fn lead_with_zeros(random: &mut Random, text: &mut Vec<u8>) {
    let start = any_field(random, text).start;
    let zeros = vec![b'0'; 1 + random.below(3)];
    text.splice(start..start, zeros);
}

fn odd_value(random: &mut Random, text: &mut Vec<u8>) {
    let field = any_field(random, text);
    text.splice(field, random.pick(&ODD_VALUES).to_vec());
}

// Changes one of the first line's fields, if that line is whole.
fn odd_name(random: &mut Random, text: &mut Vec<u8>) {
    let names = text.iter().position(|byte| *byte == LINE_END).unwrap_or(0);
    let field = any_field(random, &text[..names]);
    text.splice(field, random.pick(&ODD_NAMES).to_vec());
}

// All names in lower case, or one letter of them.
#[allow(clippy::ptr_arg)]
fn lower_case(random: &mut Random, text: &mut Vec<u8>) {
    let names = text.iter().position(|byte| *byte == LINE_END).unwrap_or(0);
    if random.one_in(2) {
        text.make_ascii_lowercase();
    } else if names > 0 {
        text[random.below(names)].make_ascii_lowercase();
    }
}

fn trail(random: &mut Random, text: &mut Vec<u8>) {
    text.push(any_byte(random));
}
