//! Random scripts: most of them play many calls on tables near the edge of
//! admission, and some are refused at the start or end at a bad line.

use crate::machine::{Job, Machine};
use crate::needs::{self, NEEDS, Needs};
use crate::random::Random;
use crate::reading::{LINE_END, MOST_BYTES, read};
use crate::script::{Call, MOST_SCRIPT_BYTES, Script, carry_out};
use crate::slack;
use crate::slow;
use crate::tables::{self, Admits};
use crate::tasks::{LONGEST_PERIOD, MOST_CORES, MOST_TASKS, Task};
use crate::texts::{self, ORDERS};
use crate::window;
use crate::wrong;

/// The most calls of one script.
pub const MOST_CALLS: usize = 1_000;

// How many tasks are tried to fill a table.
const FILLING: usize = 100;

// How often each kind of call comes, out of 64; the rest are slots. A call for
// which there is no task, such as a release when none is due or a commit when none is
// held, becomes a slot.
#[derive(Clone, Copy)]
struct Rates {
    release: usize,
    finish: usize,
    offer: usize,
    commit: usize,
    odd: usize,
}

const PERIODIC: Rates = rates(64, 0, 0, 0, 0);
const DENSE: Rates = rates(42, 3, 1, 2, 4);
const BUSY: Rates = rates(32, 1, 0, 0, 1);
const SPARSE: Rates = rates(8, 3, 1, 2, 4);
const WILD: Rates = rates(16, 10, 6, 4, 16);
const OFFERING: Rates = rates(10, 2, 20, 20, 4);
const COMPLETED: Rates = rates(36, 1, 4, 6, 2);

// Tables are filled up to the edge of the slack test most of the time.
const TESTS: [Admits; 3] = [slack::admits, slack::admits, window::admits];

// How often a slot names more cores than m, and how often a number that is
// refused, out of 64; the rest name m.
#[derive(Clone, Copy)]
struct CoreRates {
    more: usize,
    refused: usize,
}

const STEADY: CoreRates = core_rates(2, 2);
const MIXED: CoreRates = core_rates(16, 4);
const AMPLE: CoreRates = core_rates(56, 4);
const REFUSING: CoreRates = core_rates(8, 32);

// Steady most of the time: where every slot has cores to spare, no job competes.
const CORE_RATES: [CoreRates; 8] = [
    STEADY, STEADY, STEADY, STEADY, MIXED, MIXED, AMPLE, REFUSING,
];

// Lines that are no call by the format: other words, counts, digits and bytes.
const BAD_LINES: [&str; 54] = [
    "SLOTS 2",
    "slot 2",
    "SLOT",
    "SLOT ",
    "SLOT x",
    "SLOT -1",
    "SLOT 02",
    "SLOT 2 ",
    "SLOT  2",
    "SLOT 2 2",
    "SLOT 4294967296",
    "RELEASE",
    "RELEASE x 1",
    "RELEASE -1 1",
    "RELEASE 01 1",
    "RELEASE 4294967296 1",
    "RELEASE 1",
    "RELEASE 1 ",
    "RELEASE 1 1 ",
    "RELEASE 1  1",
    "RELEASE 1 1 1",
    "RELEASE 1 x",
    "RELEASE 1 -1",
    "RELEASE 1 01",
    "RELEASE 1 00",
    "RELEASE 1 1x",
    "RELEASE 1 4294967296",
    "RELEASE 1 4294967297",
    "RELEASE 1 10000000000",
    "RELEASE 1\t1",
    "FINISH",
    "FINISH 1x",
    "FINISH 4294967296",
    "FINISH 12345678901",
    "OFFER",
    "OFFER ",
    "OFFER 4",
    "OFFER 4 1",
    "OFFER 4 1 ",
    "OFFER 4 1 4 ",
    "OFFER 4 1 4 4",
    "OFFER  4 1 4",
    "OFFER 4 01 4",
    "OFFER 4 1 4294967296",
    "OFFERS 4 1 4",
    "offer 4 1 4",
    "COMMIT ",
    "COMMIT 1",
    "COMMIT 4 1 4",
    "COMMITS",
    "COMMI",
    "commit",
    "JOIN 4 1 4",
    "STOP 1",
];

/// The script with this index under this seed.
pub fn script(seed: u64, index: u64) -> Script {
    let mut random = Random::new(seed, index);
    let script = match random.below(40) {
        0 => of_any_text(&mut random),
        1 => on_odd_cores(&mut random),
        2 => ended_by_a_bad_line(&mut random),
        3..=5 => growing(&mut random),
        6..=10 => overloaded(&mut random),
        11..=19 => packed(&mut random),
        20 => finest(&mut random),
        21..=23 => completed(&mut random),
        24..=26 => tied(&mut random),
        _ => near_edge(&mut random),
    };
    assert!(script.text().len() <= MOST_SCRIPT_BYTES);
    script
}

// A text of the reader's checks, most of them refused, on any m.
fn of_any_text(random: &mut Random) -> Script {
    let mut table = any_text(random);
    table.truncate(MOST_BYTES + 1);
    if table.last().is_some_and(|byte| *byte != LINE_END) {
        table.push(LINE_END);
    }
    let cores = random.pick(&[0, 1, 2, 16, 17]);
    with_calls(random, cores, table, SPARSE)
}

fn any_text(random: &mut Random) -> Vec<u8> {
    if random.one_in(10) {
        return texts::write(&[], random.pick(&ORDERS));
    }
    loop {
        let text = texts::text(random.bits(), random.bits());
        if read(&text).is_err() || random.one_in(8) {
            return text;
        }
    }
}

// m outside 1 to 16: the start is refused whatever the calls are.
fn on_odd_cores(random: &mut Random) -> Script {
    let table = tables::valid(random);
    let any = random.between(18, u32::MAX);
    let cores = random.pick(&[0, 17, 32, 256 + 2, 65_536 + 2, u32::MAX, any]);
    let text = texts::write(&table, random.pick(&ORDERS));
    with_calls(random, cores, text, WILD)
}

fn ended_by_a_bad_line(random: &mut Random) -> Script {
    let mut script = near_edge(random);
    let at = random.below(script.calls.len() + 1);
    script.calls.insert(at, Call::Bad(random.pick(&BAD_LINES)));
    script
}

// Light tasks on many cores, so that commits reach 32 tasks.
fn growing(random: &mut Random) -> Script {
    let tasks = 1 + random.below(MOST_TASKS);
    let table: Vec<Task> = (0..tasks).map(|_| light(random)).collect();
    let cores = random.between(2, MOST_CORES);
    let rates = random.pick(&[OFFERING, OFFERING, WILD, DENSE]);
    on_table(random, cores, &table, rates)
}

// Short tasks of large budgets on few cores: refused tables with late jobs.
fn overloaded(random: &mut Random) -> Script {
    let tasks = 2 + random.below(MOST_TASKS - 1);
    let table: Vec<Task> = (0..tasks).map(|_| heavy(random)).collect();
    let half = u32::try_from(tasks / 2).expect("at most 16");
    let cores = random.between(1, half);
    let rates = random.pick(&[PERIODIC, DENSE, DENSE, SPARSE, WILD]);
    on_table(random, cores, &table, rates)
}

// An admitted table filled with short tasks until few more are admitted: jobs
// compete for the cores and turn urgent.
fn packed(random: &mut Random) -> Script {
    let cores = random.pick(&[1, 2, 2, 2, 3, 3, 3, 4, 5, 6, 8, MOST_CORES]);
    let table = filled(random, cores, short);
    let rates = random.pick(&[PERIODIC, PERIODIC, DENSE, BUSY]);
    on_table(random, cores, &table, rates)
}

// A table that the slack test would refuse with its quotient rounded up: the slacks
// count to the last slot.
fn finest(random: &mut Random) -> Script {
    let cores = random.pick(&[2, 2, 2, 3, 4]);
    let tasks = random.between(cores + 2, cores + 3);
    let rounded_up = wrong::named(wrong::ROUNDED_UP);
    for _ in 0..400 {
        let table: Vec<Task> = (0..tasks).map(|_| short(random)).collect();
        if slack::admits(&table, cores) && !rounded_up.judge(&table, cores).1 {
            let rates = random.pick(&[PERIODIC, BUSY]);
            return on_table(random, cores, &table, rates);
        }
    }
    packed(random)
}

// A table as above, or one that a cut after 64 rounds decides, without its last tasks,
// which are offered in between: most of them are tasks that only the slack test admits.
fn completed(random: &mut Random) -> Script {
    let mut cores = random.pick(&[1, 1, 2, 2, 3, 4]);
    let mut table = filled(random, cores, short);
    if random.one_in(6) {
        (cores, table) = (1, slow::near_cut(random));
    }
    let most = table.len().min(4);
    let last = table.split_off(table.len() - random.below(most));
    let text = texts::write(&table, random.pick(&ORDERS));
    with_offers(random, cores, text, COMPLETED, last)
}

// Tasks that share a period and a deadline and differ in their budgets: jobs that
// are released together stay equal in left. With a core fewer some are late.
fn tied(random: &mut Random) -> Script {
    let cores = random.pick(&[1, 2, 2, 3, 3, 4, 8, MOST_CORES]);
    let shapes = if random.one_in(8) {
        neighbours(random)
    } else {
        [short(random), short(random)]
    };
    let table = filled(random, cores, |random| any_budget(random, &shapes));
    let fewer = u32::from(cores > 1 && random.one_in(3));
    let rates = random.pick(&[PERIODIC, PERIODIC, BUSY]);
    on_table(random, cores - fewer, &table, rates)
}

/// A table that a test admits and that hardly takes another such task.
pub fn filled(random: &mut Random, cores: u32, task: impl Fn(&mut Random) -> Task) -> Vec<Task> {
    let admits = random.pick(&TESTS);
    let mut table = vec![task(random)];
    for _ in 0..FILLING {
        table.push(task(random));
        if !admits(&table, cores) {
            table.pop();
        }
    }
    table
}

// Both sides of the m from which on a test admits the table, or any m.
fn near_edge(random: &mut Random) -> Script {
    let table = if random.one_in(4) {
        tables::valid(random)
    } else {
        short_periods(random)
    };
    let admits = random.pick(&TESTS);
    let refused = |cores: &u32| !admits(&table, *cores);
    let last_refused = (1..=MOST_CORES).rfind(refused).unwrap_or(0);
    let cores = match random.below(8) {
        0 => random.between(1, MOST_CORES),
        1 | 2 => last_refused.max(1),
        _ => (last_refused + 1).min(MOST_CORES),
    };
    let rates = random.pick(&[PERIODIC, DENSE, DENSE, SPARSE, WILD, OFFERING]);
    on_table(random, cores, &table, rates)
}

// A table whose every task can be released more than once in a script.
fn short_periods(random: &mut Random) -> Vec<Task> {
    loop {
        let table = tables::valid(random);
        if table.iter().all(|task| task.period <= 100) {
            return table;
        }
    }
}

/// Budgets of 1 to 3. A cut to 8 or 16 bits would make two of the periods short.
pub fn light(random: &mut Random) -> Task {
    let period = random.pick(&[40, 60, 256 + 40, 1_000, 65_536 + 40, LONGEST_PERIOD]);
    let deadline = random.between(period / 2, period);
    Task::new(period, random.between(1, 3), deadline)
}

/// Small spares, budgets of 1 or 2, or any.
pub fn short(random: &mut Random) -> Task {
    let period = random.between(2, 24);
    let deadline = random.between(period.div_ceil(2), period);
    let budget = match random.below(3) {
        0 => deadline - random.between(0, deadline.min(4) - 1),
        1 => random.between(1, deadline.min(2)),
        _ => random.between(1, deadline),
    };
    Task::new(period, budget, deadline)
}

// Long deadlines one slot apart: a rank in which the largest budgets reach into
// left would confuse their order.
fn neighbours(random: &mut Random) -> [Task; 2] {
    let deadline = random.between(LONGEST_PERIOD / 2, LONGEST_PERIOD - 1);
    [deadline, deadline + 1].map(|deadline| Task::new(LONGEST_PERIOD, 1, deadline))
}

/// The period and deadline of one of the tasks, and any budget.
pub fn any_budget(random: &mut Random, shapes: &[Task]) -> Task {
    let shape = random.pick(shapes);
    let budget = random.between(1, shape.deadline);
    Task::new(shape.period, budget, shape.deadline)
}

/// Large budgets and no long periods.
pub fn heavy(random: &mut Random) -> Task {
    let period = random.between(1, 14);
    let deadline = random.between(period.div_ceil(2), period);
    let budget = random.between(deadline.div_ceil(3), deadline);
    Task::new(period, budget, deadline)
}

fn on_table(random: &mut Random, cores: u32, table: &[Task], rates: Rates) -> Script {
    let text = texts::write(table, random.pick(&ORDERS));
    with_calls(random, cores, text, rates)
}

fn with_calls(random: &mut Random, cores: u32, table: Vec<u8>, rates: Rates) -> Script {
    with_offers(random, cores, table, rates, Vec::new())
}

// The calls are chosen with a machine at hand, so that many are accepted. The first
// offers while none is held are of the given tasks, from the last to the first.
// Where the start is refused, any table serves to choose calls.
fn with_offers(
    random: &mut Random,
    cores: u32,
    table: Vec<u8>,
    rates: Rates,
    mut offers: Vec<Task>,
) -> Script {
    let tasks = read(&table).unwrap_or_else(|_| vec![light(random)]);
    let chosen = cores.clamp(1, MOST_CORES);
    let mut machine = Machine::start(&tasks, chosen).expect("a table on 1 to 16 cores");
    let core_rates = random.pick(&CORE_RATES);
    let needs = random.pick(&NEEDS);
    let mut calls = Vec::new();
    for _ in 0..length(random) {
        let call = next(random, &machine, rates, needs, &mut offers);
        let call = call.unwrap_or_else(|| Call::Slot(cores_of_slot(random, chosen, core_rates)));
        carry_out(&mut machine, call);
        calls.push(call);
    }
    Script {
        cores,
        table,
        calls,
    }
}

fn length(random: &mut Random) -> usize {
    match random.below(16) {
        0 => random.below(8),
        1..=11 => 20 + random.below(180),
        12..=14 => 200 + random.below(500),
        _ => MOST_CALLS - random.below(2),
    }
}

// Any call but a slot, or none for a slot.
fn next(
    random: &mut Random,
    machine: &Machine,
    rates: Rates,
    needs: Needs,
    offers: &mut Vec<Task>,
) -> Option<Call> {
    let release = rates.release;
    let finish = release + rates.finish;
    let offer = finish + rates.offer;
    let commit = offer + rates.commit;
    let odd = commit + rates.odd;
    match random.below(64) {
        roll if roll < release => release_due(random, machine, needs),
        roll if roll < finish => finish_open(random, machine),
        roll if roll < offer => Some(Call::Offer(next_offer(random, machine, offers))),
        roll if roll < commit => machine.offered.map(|_| Call::Commit),
        roll if roll < odd => odd_call(random, machine),
        _ => None,
    }
}

// Once in a while with a need that is refused: the task stays due.
fn release_due(random: &mut Random, machine: &Machine, needs: Needs) -> Option<Call> {
    let number = some_task(random, machine, |job| !job.open && job.gap == 0)?;
    let task = task(machine, number);
    let need = match random.one_in(64) {
        true => needs::refused(random, task),
        false => needs::accepted(random, needs, task),
    };
    Some(Call::Release(number, need))
}

fn task(machine: &Machine, number: u32) -> &Task {
    let index = usize::try_from(number - 1).expect("at most 32 tasks");
    &machine.table[index]
}

fn finish_open(random: &mut Random, machine: &Machine) -> Option<Call> {
    let open = some_task(random, machine, |job| job.open);
    open.map(Call::Finish)
}

// The k of one slot on a machine of m cores.
fn cores_of_slot(random: &mut Random, m: u32, rates: CoreRates) -> u32 {
    match random.below(64) {
        roll if roll < rates.more => more_cores(random, m),
        roll if roll < rates.more + rates.refused => no_cores(random, m),
        _ => m,
    }
}

// One core more than m, all 16, or any number that is accepted.
fn more_cores(random: &mut Random, m: u32) -> u32 {
    let next = (m + 1).min(MOST_CORES);
    let any = random.between(m, MOST_CORES);
    random.pick(&[next, next, MOST_CORES, any])
}

/// Numbers that are not m to 16: the neighbours, the ends of 32 bits, and some
/// that a cut to fewer bits or a wrap would bring back into it.
pub fn no_cores(random: &mut Random, m: u32) -> u32 {
    let accepted = random.between(m, MOST_CORES);
    let cut = random.pick(&[32, 128, 256, 65_536, 1 << 31]) + accepted;
    let negative = accepted.wrapping_neg();
    let below = random.between(0, m - 1);
    let far = random.between(MOST_CORES + 1, u32::MAX);
    let near = random.pick(&[0, m - 1, MOST_CORES + 1]);
    let back = random.pick(&[256 + m, 65_536 + m, cut, negative]);
    random.pick(&[near, near, back, back, below, far, u32::MAX])
}

/// The number of a task whose job is so, if there is one.
pub fn some_task(random: &mut Random, machine: &Machine, so: fn(&Job) -> bool) -> Option<u32> {
    let numbers = (1..).zip(&machine.jobs);
    let found: Vec<u32> = numbers.filter(|(_, job)| so(job)).map(|(i, _)| i).collect();
    (!found.is_empty()).then(|| random.pick(&found))
}

// One of the given tasks while none is held. While one is held, sometimes that one again,
// which a test beside it may refuse, or one slot longer.
fn next_offer(random: &mut Random, machine: &Machine, offers: &mut Vec<Task>) -> Task {
    match machine.offered {
        None => offers
            .pop()
            .unwrap_or_else(|| near_edge_of_offers(random, machine)),
        Some(task) => match random.below(6) {
            0 => task,
            1 => Task::new(task.period, task.budget + 1, task.deadline),
            _ => near_edge_of_offers(random, machine),
        },
    }
}

// Half of the time a task that only the slack test admits, if a few tries find one.
fn near_edge_of_offers(random: &mut Random, machine: &Machine) -> Task {
    let any = to_offer(random, &machine.table);
    if random.one_in(2) || machine.table.len() == MOST_TASKS {
        return any;
    }
    let mut longer = machine.table.clone();
    longer.push(any);
    for _ in 0..4 {
        let task = short(random);
        longer[machine.table.len()] = task;
        if !window::admits(&longer, machine.cores) && slack::admits(&longer, machine.cores) {
            return task;
        }
    }
    any
}

/// A task that may be admitted: light, as one of the table, or any.
pub fn to_offer(random: &mut Random, table: &[Task]) -> Task {
    match random.below(8) {
        0..=3 => light(random),
        4 => random.pick(table),
        5 => heavy(random),
        6 => odd_task(random),
        _ => tables::of_tasks(random, 1)[0],
    }
}

// Calls that are refused most of the time: too soon, of a need that is 0 or too
// large, of a closed or of no task, an offer that breaks the limits, or a commit.
fn odd_call(random: &mut Random, machine: &Machine) -> Option<Call> {
    let tasks = u32::try_from(machine.table.len()).expect("at most 32 tasks");
    let any = random.between(1, tasks);
    match random.below(12) {
        0 | 1 => Some(odd_release(random, machine, any)),
        2 | 3 => {
            let number = some_task(random, machine, |job| job.gap > 0)?;
            Some(odd_release(random, machine, number))
        }
        4 => some_task(random, machine, |job| !job.open).map(Call::Finish),
        5 => Some(Call::Finish(any)),
        6 | 7 => Some(release_of_no_task(random, machine, tasks)),
        8 => Some(Call::Finish(no_task(random, tasks))),
        9 => Some(Call::Commit),
        _ => Some(Call::Offer(odd_task(random))),
    }
}

// With any need, accepted or refused.
fn odd_release(random: &mut Random, machine: &Machine, number: u32) -> Call {
    let task = task(machine, number);
    let need = match random.one_in(2) {
        true => needs::refused(random, task),
        false => needs::accepted(random, Needs::Any, task),
    };
    Call::Release(number, need)
}

// With any need: 0, too large for all, or one that some task takes.
fn release_of_no_task(random: &mut Random, machine: &Machine, tasks: u32) -> Call {
    let some = random.pick(&machine.table);
    let good = needs::accepted(random, Needs::Any, &some);
    let refused = needs::refused(random, &some);
    let need = random.pick(&[0, good, refused]);
    Call::Release(no_task(random, tasks), need)
}

/// Numbers that are not in a table of so many tasks: the neighbours, of which the next is
/// that of a held task, and some that a cut to fewer bits or a wrap would bring back into it.
pub fn no_task(random: &mut Random, tasks: u32) -> u32 {
    let (next, far) = (tasks + 1, random.between(tasks + 1, u32::MAX));
    let near = random.pick(&[0, next, next, next]);
    random.pick(&[near, near, 33, 64, 256 + 1, 65_536 + 1, u32::MAX, far])
}

/// A task outside 1 ≤ C ≤ D ≤ T ≤ 1,000,000, near or far, or at its edge.
pub fn odd_task(random: &mut Random) -> Task {
    let Task {
        period,
        budget,
        deadline,
    } = light(random);
    match random.below(10) {
        0 => Task::new(period, 0, deadline),
        1 => Task::new(period, deadline + 1, deadline),
        2 => Task::new(period, budget, period + 1),
        3 => Task::new(LONGEST_PERIOD + 1, budget, deadline),
        4 => Task::new(0, budget, deadline),
        5 => Task::new(period, budget, 0),
        6 => Task::new(u32::MAX, budget, deadline),
        7 => Task::new(u32::MAX, u32::MAX, u32::MAX),
        8 => Task::new(period, deadline, deadline),
        _ => Task::new(LONGEST_PERIOD, budget, LONGEST_PERIOD),
    }
}

const fn rates(release: usize, finish: usize, offer: usize, commit: usize, odd: usize) -> Rates {
    Rates {
        release,
        finish,
        offer,
        commit,
        odd,
    }
}

const fn core_rates(more: usize, refused: usize) -> CoreRates {
    CoreRates { more, refused }
}
