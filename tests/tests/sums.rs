//! Document 02, change 7, "Thirty-two bit sums", on tables worked out by hand: sums at,
//! below and above m·A_k, up to the largest, by the programs of both tests and by the C
//! entry. A task 1, 1, 1 has no spare, so it always reaches; it is busy in every slot, so
//! that it takes the whole spare of any other task.

use edzl_tests::tasks::{MOST_CORES, Task};
use edzl_tests::texts::{ORDERS, write};
use edzl_tests::{host, oracle, program, slack, window};

const fn task(period: u32, budget: u32, deadline: u32) -> Task {
    Task::new(period, budget, deadline)
}

const ONE: Task = task(1, 1, 1);

// Of the largest spare, 999,999; 16 times that is 15,999,984.
const LARGEST: Task = task(1_000_000, 1, 1_000_000);

// What both tests say for one m.
#[derive(Clone, Copy)]
struct Line {
    count: u32,
    rounds: u32,
    window: u32,
    slack: u32,
}

// All tasks reach, and they are more than m.
const fn all_reach(tasks: u32) -> Line {
    Line {
        count: tasks,
        rounds: 1,
        window: 0,
        slack: 0,
    }
}

// Both tests admit, in 2 rounds: the slacks of the first stay.
const fn both_admit(count: u32) -> Line {
    Line {
        count,
        rounds: 2,
        window: 1,
        slack: 1,
    }
}

// Each task so many times.
fn table(groups: &[(usize, Task)]) -> Vec<Task> {
    let groups = groups.iter().map(|(times, task)| vec![*task; *times]);
    groups.flatten().collect()
}

// The lines for m = 1, 2 and so on, by the model and the programs, and the entry's answer.
fn check(table: &[Task], expected: impl Fn(u32) -> Line) {
    let text = write(table, ORDERS[0]);
    let tasks = u32::try_from(table.len()).expect("at most 32 tasks");
    let mut verdict = "CORES COUNT ADMIT\n".to_string();
    let mut sharper = "CORES ROUNDS ADMIT\n".to_string();
    for m in 1..=tasks.min(MOST_CORES) {
        let line = expected(m);
        verdict += &format!("{m} {} {}\n", line.count, line.window);
        sharper += &format!("{m} {} {}\n", line.rounds, line.slack);
        assert_eq!(host::admit(&text, m), line.slack, "edzl_admit, m = {m}");
    }
    assert_eq!(oracle::verdict_output(&text), verdict, "the model");
    assert_eq!(oracle::sharper_output(&text), sharper, "the model");
    let printed = [
        program::verdict_output(&text),
        program::sharper_output(&text),
    ];
    let printed = printed.map(|output| String::from_utf8(output).expect("lines of text"));
    assert_eq!(printed, [verdict, sharper], "verdict and sharper");
}

// One line up to m = 15, and another for m = 16.
fn check_16(table: &[Task], fewer: Line, sixteen: Line) {
    check(table, |m| if m < 16 { fewer } else { sixteen });
}

// The sum of a task on 16 cores, counted from 0, its 16·A and its slack, in round 1.
fn check_first_round(table: &[Task], k: usize, [sum, goal, slack]: [u64; 3]) {
    let rounds = slack::rounds(table, 16).expect("a verdict");
    let met = [
        rounds[0].sums[k],
        16 * window::spare(&table[k]),
        rounds[0].slacks[k],
    ];
    assert_eq!(met, [sum, goal, slack]);
}

// 15·999,999 = 14,999,985 is below 16·999,999 and not below 15·999,999. On 16 cores only
// the tasks 1, 1, 1 reach, 15 of them; 14,999,985/16, rounded down, is 937,499.
#[test]
fn with_15_tasks_always_busy() {
    let table = table(&[(1, LARGEST), (15, ONE)]);
    check_16(&table, all_reach(16), both_admit(15));
    check_first_round(&table, 0, [14_999_985, 15_999_984, 62_500]);
}

// 16·999,999 is at m·A on 16 cores, and above it on fewer.
#[test]
fn with_16_tasks_always_busy() {
    let table = table(&[(1, LARGEST), (16, ONE)]);
    check(&table, |_| all_reach(17));
    check_first_round(&table, 0, [15_999_984, 15_999_984, 0]);
}

// 31·999,999, the largest sum there is.
#[test]
fn with_31_tasks_always_busy() {
    let table = table(&[(1, LARGEST), (31, ONE)]);
    check(&table, |_| all_reach(32));
    check_first_round(&table, 0, [30_999_969, 15_999_984, 0]);
}

// The place of the task in the table plays no part.
#[test]
fn the_largest_spare_last_or_between() {
    check(&table(&[(31, ONE), (1, LARGEST)]), |_| all_reach(32));
    check(&table(&[(16, ONE), (1, LARGEST)]), |_| all_reach(17));
    let below = table(&[(7, ONE), (1, LARGEST), (8, ONE)]);
    check_16(&below, all_reach(16), both_admit(15));
}

// A task 1,000,000, 999,998, 999,998 has no spare and takes 999,998 slots of a window of
// 1,000,000: 15·999,999 + 999,998 = 16·999,999 − 1. 15,999,983/16, rounded down, is
// 999,998: a slack of 1.
#[test]
fn one_below_the_largest_bound() {
    let nearly = task(1_000_000, 999_998, 999_998);
    let table = table(&[(1, LARGEST), (15, ONE), (1, nearly)]);
    check_16(&table, all_reach(17), both_admit(16));
    check_first_round(&table, 0, [15_999_983, 15_999_984, 1]);
}

// With 999,999 in place of 999,998 it takes the whole spare.
#[test]
fn at_the_largest_bound() {
    let all = task(1_000_000, 999_999, 999_999);
    let table = table(&[(1, LARGEST), (15, ONE), (1, all)]);
    check(&table, |_| all_reach(17));
    check_first_round(&table, 0, [15_999_984, 15_999_984, 0]);
}

// Two of the largest spare take a slot from each other: 16·999,999 + 1.
#[test]
fn one_above_the_largest_bound() {
    let table = table(&[(2, LARGEST), (16, ONE)]);
    check(&table, |_| all_reach(18));
    check_first_round(&table, 1, [15_999_985, 15_999_984, 0]);
}

// The same on every m: m − 1 tasks 1, 1, 1 and one that takes 999,998 slots are one below
// m·999,999, so that the m tasks without spare count alone; with 999,999 they are at it.
#[test]
fn at_the_bound_and_one_below_on_every_number_of_cores() {
    for (ones, cores) in (0..16).zip(1..) {
        let with = |slots: u32| {
            let last = task(1_000_000, slots, slots);
            table(&[(1, LARGEST), (ones, ONE), (1, last)])
        };
        check(&with(999_998), |m| match m < cores {
            true => all_reach(cores + 1),
            false => both_admit(cores),
        });
        check(&with(999_999), |m| match m <= cores {
            true => all_reach(cores + 1),
            false => both_admit(cores),
        });
    }
}

// Neighbours of the task: a spare of 999,998 three ways, and of 1. 16 times the spare is
// at m·A, and 15 times is below it and leaves a slack: 14,999,970/16 and 15/16, rounded
// down, are 937,498 and 0.
#[test]
fn other_spares() {
    let one_less = [
        task(1_000_000, 2, 1_000_000),
        task(1_000_000, 1, 999_999),
        task(999_999, 1, 999_999),
    ];
    for spared in one_less
        .into_iter()
        .chain([task(1_000_000, 999_999, 1_000_000)])
    {
        let below = table(&[(1, spared), (15, ONE)]);
        check_16(&below, all_reach(16), both_admit(15));
        check(&table(&[(1, spared), (16, ONE)]), |_| all_reach(17));
        check(&table(&[(1, spared), (31, ONE)]), |_| all_reach(32));
    }
}

// Without spare all 16 tasks reach 16·0: as many as cores, and no slack changes.
#[test]
fn without_spare() {
    let full = task(1_000_000, 1_000_000, 1_000_000);
    let admitted = Line {
        count: 16,
        rounds: 1,
        window: 1,
        slack: 1,
    };
    check_16(&table(&[(1, full), (15, ONE)]), all_reach(16), admitted);
    check(&table(&[(1, full), (16, ONE)]), |_| all_reach(17));
}

// 32 of the largest spare take a slot from each other: 31, far below even 1·999,999. In
// round 2 a window has at least 1 slot left, and nothing changes.
#[test]
fn small_sums_below_the_largest_bound() {
    let table = table(&[(32, LARGEST)]);
    check(&table, |_| both_admit(0));
    check_first_round(&table, 31, [31, 15_999_984, 999_998]);
}

// 15 tasks 1, 1, 1 and three with spare, all three one below. With A = 999,999:
// 14,999,985 + 500,000 + 499,998 = 15,999,983. With A = 500,000: 7,500,000 + 1 + 499,998
// against 8,000,000. With A = 500,002: 7,500,030 + 1 + 500,000 against 8,000,032.
#[test]
fn three_sums_one_below() {
    let halves = [500_000, 499_998].map(|budget| (1, task(1_000_000, budget, 1_000_000)));
    let table = table(&[(15, ONE), (1, LARGEST), halves[0], halves[1]]);
    check_16(&table, all_reach(18), both_admit(15));
    check_first_round(&table, 15, [15_999_983, 15_999_984, 1]);
    check_first_round(&table, 16, [7_999_999, 8_000_000, 1]);
    check_first_round(&table, 17, [8_000_031, 8_000_032, 1]);
}

// The last budget a slot more: all three at it. With A = 500,001 that is
// 7,500,015 + 1 + 500,000 = 8,000,016.
#[test]
fn three_sums_at_the_bound() {
    let halves = [500_000, 499_999].map(|budget| (1, task(1_000_000, budget, 1_000_000)));
    let table = table(&[(15, ONE), (1, LARGEST), halves[0], halves[1]]);
    check(&table, |_| all_reach(18));
    check_first_round(&table, 15, [15_999_984, 15_999_984, 0]);
    check_first_round(&table, 16, [8_000_000, 8_000_000, 0]);
    check_first_round(&table, 17, [8_000_016, 8_000_016, 0]);
}

// 32 equal tasks: 31·340,425 = 10,553,175 is below 16·659,575 = 10,553,200 and above
// 15·659,575; 10,553,175/16, rounded down, is 659,573. A slot more each, and
// 31·340,426 = 10,553,206 is above 16·659,574 = 10,553,184.
#[test]
fn thirty_two_equal_tasks() {
    let equal = |budget: u32| table(&[(32, task(1_000_000, budget, 1_000_000))]);
    check_16(&equal(340_425), all_reach(32), both_admit(0));
    check_first_round(&equal(340_425), 31, [10_553_175, 10_553_200, 2]);
    check(&equal(340_426), |_| all_reach(32));
    check_first_round(&equal(340_426), 31, [10_553_206, 10_553_184, 0]);
}

// Only the slack test admits, by a slot. 16 tasks have no spare. A task
// 999,999, 1, 999,999 takes 2 slots of a window of 1,000,000 and 1 of 999,999. Round 1:
// the largest spare has 14,999,985 + 999,995 + 2 + 2 = 15,999,984, at m·A; the other two
// 15·999,998 + 999,995 + 1 + 1 = 15,999,967, one below 16·999,998, and so a slack of 1.
// Round 2: 14,999,985 + 999,995 + 1 + 1 = 15,999,982, and a slack of 1. Round 3: the same.
#[test]
fn a_slack_of_one_slot_decides() {
    let most = task(1_000_000, 999_995, 999_995);
    let others = task(999_999, 1, 999_999);
    let table = table(&[(15, ONE), (1, most), (1, LARGEST), (2, others)]);
    let slack_admits = Line {
        count: 17,
        rounds: 3,
        window: 0,
        slack: 1,
    };
    check_16(&table, all_reach(19), slack_admits);
    check_first_round(&table, 16, [15_999_984, 15_999_984, 0]);
    check_first_round(&table, 17, [15_999_967, 15_999_968, 1]);
    let rounds = slack::rounds(&table, 16).expect("a verdict");
    assert_eq!(rounds[1].sums[16..], [15_999_982, 15_999_967, 15_999_967]);
    assert_eq!(rounds[1].slacks[16..], [1, 1, 1]);
}
