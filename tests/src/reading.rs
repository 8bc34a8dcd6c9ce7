//! Tables from text: document 01, "The table as text", with the refusals 1 to 6
//! of "Why a call is not carried out".

use crate::tasks::{MOST_TASKS, Refusal, Task};

pub const MOST_BYTES: usize = 4_096;
pub const LINE_END: u8 = 10;
pub const NAMES: [&[u8]; 3] = [b"PERIOD", b"BUDGET", b"DEADLINE"];

const MOST_DIGITS: usize = 7;

/// The table that a text holds, or why it is refused.
pub fn read(text: &[u8]) -> Result<Vec<Task>, Refusal> {
    if text.len() > MOST_BYTES {
        return Err(Refusal::whole(1));
    }
    let (columns, mut rest) = read_names(text).ok_or(Refusal::whole(2))?;
    let mut table = Vec::new();
    while !rest.is_empty() {
        let (task, after) = read_task(rest, columns, table.len() + 1)?;
        table.push(task);
        rest = after;
    }
    if table.is_empty() {
        return Err(Refusal::whole(6));
    }
    Ok(table)
}

// The columns of period, budget and deadline, and the text after the names line.
fn read_names(text: &[u8]) -> Option<([usize; 3], &[u8])> {
    let (fields, after) = read_line::<3>(text)?;
    let mut columns = [0; 3];
    for (column, name) in columns.iter_mut().zip(NAMES) {
        *column = fields.iter().position(|field| *field == name)?;
    }
    Some((columns, after))
}

// One value line goes through 3, 4 and 5 in this order.
fn read_task(rest: &[u8], columns: [usize; 3], place: usize) -> Result<(Task, &[u8]), Refusal> {
    if place > MOST_TASKS {
        return Err(Refusal::at(3, place));
    }
    let (values, after) = read_values::<3>(rest).ok_or(Refusal::at(4, place))?;
    let [period, budget, deadline] = columns.map(|column| values[column]);
    let task = Task::new(period, budget, deadline);
    if !task.fits() {
        return Err(Refusal::at(5, place));
    }
    Ok((task, after))
}

/// The values of the first line in their written order, just so many, and the text after it.
pub fn read_values<const COUNT: usize>(text: &[u8]) -> Option<([u32; COUNT], &[u8])> {
    let (fields, after) = read_line::<COUNT>(text)?;
    let mut values = [0; COUNT];
    for (value, field) in values.iter_mut().zip(fields) {
        *value = read_value(field)?;
    }
    Some((values, after))
}

/// The fields of the first line, just so many, and the text after its byte 10.
pub fn read_line<const COUNT: usize>(text: &[u8]) -> Option<([&[u8]; COUNT], &[u8])> {
    let end = text.iter().position(|byte| *byte == LINE_END)?;
    let fields: Vec<&[u8]> = text[..end].split(|byte| *byte == b' ').collect();
    Some((fields.try_into().ok()?, &text[end + 1..]))
}

// 1 to 7 digits without a leading zero; 0 alone is well formed.
fn read_value(field: &[u8]) -> Option<u32> {
    let leading_zero = field.len() > 1 && field[0] == b'0';
    let fits = (1..=MOST_DIGITS).contains(&field.len());
    if leading_zero || !fits || !field.iter().all(u8::is_ascii_digit) {
        return None;
    }
    let digits = field.iter().map(|byte| u32::from(byte - b'0'));
    Some(digits.fold(0, |value, digit| value * 10 + digit))
}
