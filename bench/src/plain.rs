//! The verdict on a text in plain Rust: the baseline for `edzl_admit`.

const MAX_TASKS: usize = 32;
const MAX_CORES: u32 = 16;
const MAX_PERIOD: u32 = 1_000_000;
const MAX_TEXT_LENGTH: usize = 4_096;
const MAX_DIGITS: usize = 7;
pub const MAX_ROUNDS: u32 = 64;
// Up to so many tasks, sums are added up anew each round, with divisions: that is faster there.
const FEW_TASKS: usize = 4;
const NAMES: [&[u8]; 3] = [b"PERIOD", b"BUDGET", b"DEADLINE"];

#[derive(Clone, Copy)]
pub struct Task {
    pub period: u32,
    pub budget: u32,
    pub deadline: u32,
}

impl Task {
    fn in_range(&self) -> bool {
        1 <= self.budget
            && self.budget <= self.deadline
            && self.deadline <= self.period
            && self.period <= MAX_PERIOD
    }

    fn spare(&self) -> u32 {
        self.deadline - self.budget
    }

    // What the task counts for in its own sum, with any slack.
    fn own_part(&self) -> u32 {
        self.budget.min(self.spare())
    }
}

// The tasks' numbers, each kind in an array of its own: loops over them take several tasks at once.
#[derive(Default)]
struct Table {
    count: usize,
    periods: [u32; MAX_TASKS],
    budgets: [u32; MAX_TASKS],
    deadlines: [u32; MAX_TASKS],
}

impl Table {
    fn of(tasks: &[Task]) -> Table {
        let mut table = Table::default();
        for task in tasks {
            table.push(task);
        }
        table
    }

    fn push(&mut self, task: &Task) {
        self.periods[self.count] = task.period;
        self.budgets[self.count] = task.budget;
        self.deadlines[self.count] = task.deadline;
        self.count += 1;
    }

    fn tasks(&self) -> impl Iterator<Item = Task> {
        let periods = &self.periods[..self.count];
        let budgets = &self.budgets[..self.count];
        let deadlines = &self.deadlines[..self.count];
        let numbers = periods.iter().zip(budgets).zip(deadlines);
        numbers.map(|((&period, &budget), &deadline)| Task {
            period,
            budget,
            deadline,
        })
    }
}

/// What the slack test finds.
pub struct Verdict {
    pub admitted: bool,
    /// How many times the sums were taken; the window test's count as the first.
    pub rounds: u32,
}

/// 0 not admitted, 1 admitted, 100 plus the refusal's number otherwise.
pub fn admit(text: &[u8], cores: u32) -> u32 {
    match judge(text, cores) {
        Err(number) => 100 + number,
        Ok(verdict) => u32::from(verdict.admitted),
    }
}

/// The verdict on a text, or the refusal's number.
pub fn judge(text: &[u8], cores: u32) -> Result<Verdict, u32> {
    let mut table = Table::default();
    read(text, &mut table)?;
    if (1..=MAX_CORES).contains(&cores) {
        Ok(judge_table(&table, cores))
    } else {
        Err(7)
    }
}

/// Whether at most `cores` tasks may turn urgent where all slacks are 0.
pub fn window_test(tasks: &[Task], cores: u32) -> bool {
    let table = Table::of(tasks);
    let mut sums = [0; MAX_TASKS];
    window_sums(&table, &mut sums);
    few_urgent(&table, &sums, cores)
}

/// The slack test.
pub fn slack_test(tasks: &[Task], cores: u32) -> Verdict {
    judge_table(&Table::of(tasks), cores)
}

// The slack test. Round 1's sums, with all slacks 0, are those of the window test, and what that
// admits is admitted without further rounds.
fn judge_table(table: &Table, cores: u32) -> Verdict {
    let mut sums = [0; MAX_TASKS];
    let mut rounds = 1;
    window_sums(table, &mut sums);
    if few_urgent(table, &sums, cores) {
        let admitted = true;
        return Verdict { admitted, rounds };
    }
    let mut before = [0; MAX_TASKS];
    let mut slacks = [0; MAX_TASKS];
    while rounds < MAX_ROUNDS && set_slacks(table, &sums, cores, &mut slacks) {
        next_sums(table, &before, &slacks, &mut sums);
        before = slacks;
        rounds += 1;
    }
    let admitted = few_urgent(table, &sums, cores);
    Verdict { admitted, rounds }
}

// The sums of all tasks where all slacks are 0, from sums of 0. Each counts the task's own part
// too, here and in the rounds, which spares the loops a test.
fn window_sums(table: &Table, sums: &mut [u32; MAX_TASKS]) {
    if table.count <= FEW_TASKS {
        return add_up(table, &[0; MAX_TASKS], sums);
    }
    for task in table.tasks() {
        let inverse = inverse(task.period);
        for (sum, own) in sums.iter_mut().zip(table.tasks()) {
            *sum += part(&task, inverse, own.deadline, own.spare());
        }
    }
}

// Turns the sums of the round before into those with the new slacks: each task whose slack changed
// takes its old parts out and puts its new ones in.
fn next_sums(
    table: &Table,
    before: &[u32; MAX_TASKS],
    slacks: &[u32; MAX_TASKS],
    sums: &mut [u32; MAX_TASKS],
) {
    if table.count <= FEW_TASKS {
        return add_up(table, slacks, sums);
    }
    for (task, (before, slack)) in table.tasks().zip(before.iter().zip(slacks)) {
        if before == slack {
            continue;
        }
        let inverse = inverse(task.period);
        for (sum, own) in sums.iter_mut().zip(table.tasks()) {
            let part = |slack| {
                let window = own.deadline.saturating_sub(slack);
                part(&task, inverse, window, own.spare())
            };
            *sum = *sum - part(*before) + part(*slack);
        }
    }
}

// The sums of few tasks, from their slacks alone.
fn add_up(table: &Table, slacks: &[u32; MAX_TASKS], sums: &mut [u32; MAX_TASKS]) {
    for (k, (own, sum)) in table.tasks().zip(sums).enumerate() {
        let others = table
            .tasks()
            .zip(slacks)
            .enumerate()
            .filter(|(i, _)| *i != k);
        let parts = others.map(|(_, (task, slack))| {
            let window = own.deadline.saturating_sub(*slack);
            let (whole, rest) = (window / task.period, window % task.period);
            (whole * task.budget + rest.min(task.budget)).min(own.spare())
        });
        *sum = own.own_part() + parts.sum::<u32>();
    }
}

// A window times this, without the lower 32 bits, is the window's quotient by the period or one
// less: one division spares one for each window.
fn inverse(period: u32) -> u32 {
    u32::MAX / period
}

// What a task counts for in the sum of one with this window and this spare.
fn part(task: &Task, inverse: u32, window: u32, spare: u32) -> u32 {
    let guess = ((u64::from(window) * u64::from(inverse)) >> 32) as u32;
    let left = window - guess * task.period;
    // Where the guess is one too low, what is left has one more period in it.
    let more = left.saturating_sub(task.period);
    let interference = guess * task.budget + left.min(task.budget) + more.min(task.budget);
    interference.min(spare)
}

fn few_urgent(table: &Table, sums: &[u32; MAX_TASKS], cores: u32) -> bool {
    let pairs = table.tasks().zip(sums);
    let urgent = pairs.filter(|(task, sum)| *sum - task.own_part() >= cores * task.spare());
    urgent.count() <= cores as usize
}

// Sets each slack by what its sum lacks, without a branch, and says whether any changed.
fn set_slacks(
    table: &Table,
    sums: &[u32; MAX_TASKS],
    cores: u32,
    slacks: &mut [u32; MAX_TASKS],
) -> bool {
    let mut changed = false;
    for ((task, sum), place) in table.tasks().zip(sums).zip(slacks) {
        let needed = cores * task.spare() + task.own_part();
        let slack = needed.saturating_sub(*sum).div_ceil(cores);
        changed |= slack != *place;
        *place = slack;
    }
    changed
}

// Fills an empty table, or gives the refusal's number.
fn read(text: &[u8], table: &mut Table) -> Result<(), u32> {
    if text.len() > MAX_TEXT_LENGTH {
        return Err(1);
    }
    let (columns, mut rest) = read_names(text).ok_or(2u32)?;
    while !rest.is_empty() {
        if table.count == MAX_TASKS {
            return Err(3);
        }
        let (task, after) = read_line(rest, columns).ok_or(4u32)?;
        if !task.in_range() {
            return Err(5);
        }
        table.push(&task);
        rest = after;
    }
    if table.count == 0 { Err(6) } else { Ok(()) }
}

// Which of the names stands before the byte `stop`, and the text after that byte.
fn read_name(text: &[u8], stop: u8) -> Option<(usize, &[u8])> {
    NAMES.iter().enumerate().find_map(|(number, name)| {
        let (byte, rest) = text.strip_prefix(*name)?.split_first()?;
        (*byte == stop).then_some((number, rest))
    })
}

// Which name each column has, and the rest of the text.
fn read_names(text: &[u8]) -> Option<([usize; 3], &[u8])> {
    let (a, rest) = read_name(text, b' ')?;
    let (b, rest) = read_name(rest, b' ')?;
    let (c, rest) = read_name(rest, b'\n')?;
    (a != b && b != c && a != c).then_some(([a, b, c], rest))
}

// The value before the byte `stop`, and the text after that byte.
fn read_value(text: &[u8], stop: u8) -> Option<(u32, &[u8])> {
    let mut number = 0;
    for (i, &byte) in text.iter().enumerate() {
        if byte == stop {
            let well_formed = i == 1 || (i > 1 && text[0] != b'0');
            return well_formed.then_some((number, &text[i + 1..]));
        }
        if !byte.is_ascii_digit() || i == MAX_DIGITS {
            return None;
        }
        number = number * 10 + u32::from(byte - b'0');
    }
    None
}

fn read_line(text: &[u8], columns: [usize; 3]) -> Option<(Task, &[u8])> {
    let (first, rest) = read_value(text, b' ')?;
    let (second, rest) = read_value(rest, b' ')?;
    let (third, rest) = read_value(rest, b'\n')?;
    let mut values = [0; 3];
    values[columns[0]] = first;
    values[columns[1]] = second;
    values[columns[2]] = third;
    let [period, budget, deadline] = values;
    let task = Task {
        period,
        budget,
        deadline,
    };
    Some((task, rest))
}
