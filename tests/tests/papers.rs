//! The task sets that source documents 002 and 000 work out, by the window test (all
//! slacks zero) through the verdict program and by the slack test through its program
//! and the C entry. Both documents write of EDZL tests; the slack-based one of document
//! 000 has slacks no larger than the slack test, so that a set that it admits must be
//! admitted here, and one that it does not admit may be. The sums, the rounds and the
//! verdicts for other numbers of cores are worked out by hand: a task counts as one that
//! may turn urgent when its sum is at least m times its spare.

use edzl_tests::tasks::Task;
use edzl_tests::texts::{ORDERS, write};
use edzl_tests::window::{spare, sum};
use edzl_tests::{host, program};

// The window test's sums and spares, its verdicts for m = 1, 2 and so on, and the rounds
// and verdicts of the slack test.
struct Expected<const N: usize> {
    sums: [u64; N],
    spares: [u64; N],
    window: [u32; N],
    slack: [(u32, u32); N],
}

fn check<const N: usize>(table: [Task; N], expected: Expected<N>) {
    for (k, task) in table.iter().enumerate() {
        assert_eq!(sum(&table, k), expected.sums[k], "sum of task {}", k + 1);
        assert_eq!(spare(task), expected.spares[k], "spare of task {}", k + 1);
    }
    let numbers = (1..).zip(expected.slack);
    let lines = numbers.map(|(m, (rounds, verdict))| format!("{m} {rounds} {verdict}\n"));
    let lines = format!("CORES ROUNDS ADMIT\n{}", lines.collect::<String>());
    for order in ORDERS {
        let text = write(&table, order);
        let sharper = String::from_utf8(program::sharper_output(&text));
        assert_eq!(sharper.as_ref(), Ok(&lines), "sharper");
        assert_eq!(window_verdicts(&text), expected.window, "verdict");
        for (cores, (_, verdict)) in (1..).zip(expected.slack) {
            assert_eq!(host::admit(&text, cores), verdict, "m = {cores}");
        }
    }
}

// The last number of each line that the verdict program prints after the names.
fn window_verdicts(text: &[u8]) -> Vec<u32> {
    let printed = String::from_utf8(program::verdict_output(text)).expect("lines of text");
    let lines = printed.lines().skip(1);
    lines.map(|line| u32::from(line.ends_with(" 1"))).collect()
}

// A task of document 000: execution time and period, which is the deadline too.
const fn task(execution: u32, period: u32) -> Task {
    Task::new(period, execution, period)
}

// Document 002, end of section 4, and document 01, case g: "deemed not
// schedulable by both existing EDZL schedulability tests" on 2 cores.
#[test]
fn document_002_section_4_three_tasks() {
    let table = [
        Task::new(10, 9, 10),
        Task::new(10, 6, 10),
        Task::new(5, 2, 5),
    ];
    let expected = Expected {
        sums: [2, 8, 6],
        spares: [1, 4, 3],
        window: [0, 0, 1],
        slack: [(1, 0), (1, 0), (2, 1)],
    };
    check(table, expected);
}

// Document 002, section 5.2: schedulable on 2 cores by the improved test (BCB-I),
// which uses slacks, and by the slack test: task 3 has a slack of 6 − 11/2, rounded
// down, and then task 4 one of 5 − 9/2. The document gives no verdict of the basic test
// (BCB), the window test; it refuses the set because tasks 1, 2 and 4 may turn urgent.
#[test]
fn document_002_section_5_2_four_tasks() {
    let table = [
        Task::new(2, 1, 2),
        Task::new(2, 1, 2),
        Task::new(7, 1, 7),
        Task::new(8, 3, 8),
    ];
    let expected = Expected {
        sums: [3, 3, 11, 10],
        spares: [1, 1, 6, 5],
        window: [0, 0, 1, 1],
        slack: [(1, 0), (3, 1), (3, 1), (2, 1)],
    };
    check(table, expected);
}

// Document 000, section 3.2, the first set: on two processors admitted by the
// demand-based test only, so not by the slack-based one.
#[test]
fn document_000_section_3_2_demand_only() {
    let table = [task(1, 2), task(2, 3), task(3, 4)];
    let expected = Expected {
        sums: [2, 2, 2],
        spares: [1, 1, 1],
        window: [0, 0, 1],
        slack: [(1, 0), (1, 0), (2, 1)],
    };
    check(table, expected);
}

// The second set: on two processors admitted by the utilization-based test only.
#[test]
fn document_000_section_3_2_utilization_only() {
    let table = [task(1, 3), task(1, 6), task(6, 7), task(5, 10)];
    let expected = Expected {
        sums: [5, 12, 3, 11],
        spares: [2, 5, 1, 5],
        window: [0, 0, 1, 1],
        slack: [(1, 0), (1, 0), (3, 1), (3, 1)],
    };
    check(table, expected);
}

// The third set: on two processors admitted by the slack-based test and not by
// the demand-based one. Only with slacks: without, tasks 1, 2 and 3 may turn urgent. The
// slacks are 0 0 0 3 2, then 1 0 0 3 2, 1 1 1 3 3, 1 1 1 3 4 and 1 2 2 3 4, which stay.
#[test]
fn document_000_section_3_2_slack_and_not_demand() {
    let table = [task(1, 3), task(1, 4), task(1, 4), task(3, 12), task(3, 13)];
    let expected = Expected {
        sums: [6, 9, 9, 13, 17],
        spares: [2, 3, 3, 9, 10],
        window: [0, 0, 1, 1, 1],
        slack: [(1, 0), (6, 1), (4, 1), (3, 1), (3, 1)],
    };
    check(table, expected);
}

// The fourth set: said to be admitted by the slack-based test on two processors,
// but its utilization is 2 and 1/56, so it is no test instance there and no
// sound test can admit it.
#[test]
fn document_000_section_3_2_above_two_processors() {
    let table = [task(1, 2), task(1, 2), task(2, 4), task(1, 7), task(3, 8)];
    let expected = Expected {
        sums: [4, 4, 7, 15, 14],
        spares: [1, 1, 2, 6, 5],
        window: [0, 0, 1, 1, 1],
        slack: [(1, 0), (1, 0), (2, 1), (3, 1), (3, 1)],
    };
    check(table, expected);
}

// The fifth set, utilization 1.46: on two processors admitted by Piao's test
// "but not admitted by the slack-based test". Of the slacks 0 0 0 2 1 the last becomes 2,
// and tasks 1, 2 and 3 reach as before.
#[test]
fn document_000_section_3_2_utilization_bound() {
    let table = [task(3, 5), task(1, 6), task(4, 8), task(1, 10), task(1, 11)];
    let expected = Expected {
        sums: [5, 10, 8, 15, 18],
        spares: [2, 5, 4, 9, 10],
        window: [0, 0, 1, 1, 1],
        slack: [(1, 0), (3, 0), (4, 1), (3, 1), (3, 1)],
    };
    check(table, expected);
}

// Document 000, section 4.2: EDZL misses a deadline on two processors, so no
// sound test can admit the set there.
#[test]
fn document_000_section_4_2_a_deadline_miss() {
    let table = [task(5, 8), task(1, 2), task(3, 6), task(3, 8)];
    let expected = Expected {
        sums: [9, 3, 9, 14],
        spares: [3, 1, 3, 5],
        window: [0, 0, 1, 1],
        slack: [(1, 0), (1, 0), (2, 1), (2, 1)],
    };
    check(table, expected);
}

// The same section: EDZL meets every deadline on two processors in a simulation
// of periodic releases. That is no verdict of a test, and this one refuses.
#[test]
fn document_000_section_4_2_no_deadline_miss() {
    let table = [task(2, 3), task(3, 5), task(1, 3), task(2, 6)];
    let expected = Expected {
        sums: [3, 6, 6, 10],
        spares: [1, 2, 2, 4],
        window: [0, 0, 1, 1],
        slack: [(1, 0), (1, 0), (2, 1), (2, 1)],
    };
    check(table, expected);
}
