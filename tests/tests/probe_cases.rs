//! Machines made by hand and one call on each, worked out on paper: the answer and
//! the machine after it, by the simulated machine and by the program. An entry is
//! written as its line: T C D, open, left, budget still owed, gap, core.

use edzl_tests::probe::Probe;
use edzl_tests::probe_check::{Line, check, check_unsound, holding, machine};
use edzl_tests::script::Call;
use edzl_tests::tasks::Task;

use Call::{Commit, Finish, Offer, Release, Slot};

// One task on 1 core: its entry before the call and after it.
fn check_one(before: Line, call: Call, answer: &str, after: Line) {
    let [before, after] = [before, after].map(|line| machine(1, 1, &[line]));
    check(&before, call, answer, &after);
}

// Left 4 of D 5, budget 2 of C 3, gap 3 of T 6: every clause holds but the last.
#[test]
fn an_open_job_with_a_gap_below_its_left() {
    for gap in [0, 1, 2, 3] {
        check_unsound(&machine(1, 1, &[[6, 3, 5, 1, 4, 2, gap, 0]]));
        check_unsound(&machine(1, 1, &[[5, 3, 5, 1, 4, 2, gap, 0]]));
    }
}

// Every other clause about a job of T 9, C 2, D 5, one beyond its limit.
#[test]
fn jobs_beyond_their_other_limits() {
    for [open, left, budget, gap] in [
        [0, 1, 0, 9],
        [0, 0, 1, 9],
        [0, 0, 0, 10],
        [1, 0, 2, 9],
        [1, 6, 2, 9],
        [1, 5, 0, 9],
        [1, 5, 3, 9],
        [1, 5, 2, 10],
    ] {
        check_unsound(&machine(1, 1, &[[9, 2, 5, open, left, budget, gap, 0]]));
    }
}

// A gap equal to left is sound, though calls would leave 5: each call goes on.
#[test]
fn an_open_job_with_a_gap_equal_to_its_left() {
    let line = [6, 3, 5, 1, 4, 2, 4, 0];
    check_one(line, Release(1, 3), "REFUSED 9", line);
    check_one(line, Finish(1), "DONE", [6, 3, 5, 0, 0, 0, 4, 0]);
    check_one(line, Slot(1), "1 0 0 1 1", [6, 3, 5, 1, 3, 1, 3, 1]);
    let added = [line, [90, 1, 90, 0, 0, 0, 0, 0]];
    let before = machine(1, 2, &[line]);
    let held = holding(before.clone(), [90, 1, 90]);
    check(&before, Offer(Task::new(90, 1, 90)), "DONE", &held);
    check(&held, Commit, "DONE", &machine(2, 2, &added));
}

// Gaps 4 and 9 at left 3, where calls would leave 3 + (9 − 5): both are sound.
#[test]
fn an_open_job_with_a_gap_that_no_call_leaves() {
    let line = [9, 2, 5, 1, 3, 1, 4, 0];
    check_one(line, Slot(1), "1 1 0 1 1", [9, 2, 5, 0, 0, 0, 3, 1]);
    let line = [9, 2, 5, 1, 3, 2, 9, 0];
    check_one(line, Slot(1), "1 0 0 1 1", [9, 2, 5, 1, 2, 1, 8, 1]);
    check_one(line, Release(1, 2), "REFUSED 9", line);
}

// Gap 2 at left 1 and budget 3: below the budget and below D, and sound. The job
// runs, is late, and keeps its gap.
#[test]
fn a_gap_below_the_budget() {
    let line = [9, 3, 5, 1, 1, 3, 2, 0];
    check_one(line, Slot(1), "1 0 1 1 1", [9, 3, 5, 0, 0, 0, 1, 1]);
}

// The same with gap 1: after the slot the task is due.
#[test]
fn a_late_job_whose_gap_ends_with_it() {
    let late = [9, 3, 5, 0, 0, 0, 0, 1];
    check_one([9, 3, 5, 1, 1, 3, 1, 0], Slot(1), "1 0 1 1 1", late);
    check_one(late, Release(1, 3), "DONE", [9, 3, 5, 1, 5, 3, 9, 1]);
}

// A closed task's gap is not compared with D or C: 0 to T are sound, T + 1 is not.
#[test]
fn gaps_of_a_closed_task() {
    check_one(
        [9, 2, 5, 0, 0, 0, 0, 0],
        Release(1, 2),
        "DONE",
        [9, 2, 5, 1, 5, 2, 9, 0],
    );
    for gap in [1, 4, 5, 9] {
        let line = [9, 2, 5, 0, 0, 0, gap, 0];
        check_one(line, Release(1, 2), "REFUSED 9", line);
        check_one(line, Finish(1), "REFUSED 11", line);
        check_one(line, Slot(1), "0 0 0 0", [9, 2, 5, 0, 0, 0, gap - 1, 0]);
    }
    check_unsound(&machine(1, 1, &[[9, 2, 5, 0, 0, 0, 10, 0]]));
}

// A start would refuse these by 6, 3, 7 and 5: no task, more than 32, m, the task.
#[test]
fn machines_that_no_start_leaves() {
    let line = [9, 2, 5, 0, 0, 0, 0, 0];
    for (count, cores) in [(0, 1), (33, 1), (u32::MAX, 1), (1, 0), (1, 17)] {
        check_unsound(&machine(count, cores, &[line; 32]));
    }
    for task in [[9, 0, 5], [9, 6, 5], [4, 2, 5], [1_000_001, 2, 5]] {
        let [period, budget, deadline] = task;
        let unfit = [period, budget, deadline, 0, 0, 0, 0, 0];
        check_unsound(&machine(2, 1, &[line, unfit]));
    }
}

// One task's fault refuses the calls of every other: the first, and the 32nd.
#[test]
fn a_gap_below_left_in_one_of_32_tasks() {
    let (sound, unsound) = ([6, 3, 5, 1, 5, 3, 6, 0], [6, 3, 5, 1, 5, 3, 4, 0]);
    for at in [0, 31] {
        let mut lines = [sound; 32];
        check(
            &machine(32, 16, &lines),
            Release(2, 3),
            "REFUSED 9",
            &machine(32, 16, &lines),
        );
        lines[at] = unsound;
        check_unsound(&machine(32, 16, &lines));
        check(
            &machine(32, 16, &lines),
            Finish(2),
            "REFUSED 0",
            &machine(32, 16, &lines),
        );
    }
}

// Past the count the same entry is no part of the machine, and stays.
#[test]
fn a_gap_below_left_past_the_count() {
    let past = [6, 3, 5, 1, 4, 2, 3, 1];
    let before = machine(1, 1, &[[9, 2, 5, 1, 3, 1, 7, 0], past]);
    let after = machine(1, 1, &[[9, 2, 5, 0, 0, 0, 6, 1], past]);
    check(&before, Slot(1), "1 1 0 1 1", &after);
    let after = machine(1, 1, &[[9, 2, 5, 0, 0, 0, 7, 0], past]);
    check(&before, Finish(1), "DONE", &after);
    let due = machine(1, 1, &[[9, 2, 5, 0, 0, 0, 0, 0], past]);
    let after = machine(1, 1, &[[9, 2, 5, 1, 5, 2, 9, 0], past]);
    check(&due, Release(1, 2), "DONE", &after);
    check(&before, Finish(2), "REFUSED 8", &before);
    check(&before, Release(2, 3), "REFUSED 8", &before);
}

// The commit writes its own entry whole, and keeps the one after it. The offer keeps both,
// and a refused one keeps what is held too.
#[test]
fn a_commit_over_an_entry_that_is_not_0() {
    let (task, last) = ([20, 2, 10, 0, 0, 0, 0, 7], [1, 2, 3, 1, 4, 5, 6, 17]);
    let none = machine(1, 1, &[task, [7, 7, 7, 1, 7, 7, 7, 7], last]);
    let held = holding(none.clone(), [20, 3, 10]);
    check(&none, Offer(Task::new(20, 3, 10)), "DONE", &held);
    for before in [&none, &held] {
        check(before, Offer(Task::new(20, 11, 10)), "REFUSED 5", before);
        check(before, Offer(Task::new(10, 10, 10)), "REFUSED 13", before);
    }
    let after = machine(2, 1, &[task, [20, 3, 10, 0, 0, 0, 0, 0], last]);
    check(&held, Commit, "DONE", &after);
    check(&none, Commit, "REFUSED 17", &none);
    check(&after, Commit, "REFUSED 17", &after);
}

// The other calls keep the held task, accepted or refused. Its number is not in the table.
#[test]
fn calls_on_a_machine_that_holds_a_task() {
    let held = |line: Line| holding(machine(1, 1, &[line]), [40, 3, 30]);
    let (due, open) = ([20, 5, 10, 0, 0, 0, 0, 4], [20, 5, 10, 1, 9, 4, 19, 0]);
    let before = held(due);
    let released = held([20, 5, 10, 1, 10, 5, 20, 4]);
    check(&before, Release(1, 5), "DONE", &released);
    check(&before, Finish(1), "REFUSED 11", &before);
    check(&before, Release(1, 6), "REFUSED 15", &before);
    check(&before, Release(2, 3), "REFUSED 8", &before);
    check(&before, Finish(2), "REFUSED 8", &before);
    let before = held(open);
    check(
        &before,
        Finish(1),
        "DONE",
        &held([20, 5, 10, 0, 0, 0, 19, 0]),
    );
    check(
        &before,
        Slot(1),
        "1 0 0 1 1",
        &held([20, 5, 10, 1, 8, 3, 18, 1]),
    );
    check(&before, Release(1, 5), "REFUSED 9", &before);
    check(&before, Slot(0), "REFUSED 14", &before);
    // Late: such a job no call leaves.
    let late = held([20, 5, 10, 1, 1, 2, 19, 0]);
    check(
        &late,
        Slot(1),
        "1 0 1 1 1",
        &held([20, 5, 10, 0, 0, 0, 18, 1]),
    );
}

// Two tasks 5 5 5 on 1 core are not admitted: number 13. On 2 cores they are.
#[test]
fn a_held_task_that_is_not_admitted() {
    let full = [5, 5, 5, 0, 0, 0, 0, 0];
    check_unsound(&holding(machine(1, 1, &[full]), [5, 5, 5]));
    let open = [5, 5, 5, 1, 5, 5, 5, 1];
    check_unsound(&holding(machine(1, 1, &[open]), [5, 5, 5]));
    check_unsound(&holding(
        machine(2, 1, &[full, full]),
        [1_000_000, 1, 1_000_000],
    ));
    let sound = holding(machine(1, 2, &[full]), [5, 5, 5]);
    check(&sound, Commit, "DONE", &machine(2, 2, &[full, full]));
}

// Number 5 for the held task, one beyond each limit and far beyond.
#[test]
fn a_held_task_outside_its_limits() {
    let before = machine(1, 2, &[[9, 2, 5, 1, 5, 2, 9, 0]]);
    for task in [
        [0, 0, 0],
        [9, 0, 5],
        [9, 6, 5],
        [4, 2, 5],
        [1_000_001, 2, 5],
        [9, 2, 0],
        [0, 2, 5],
        [256, 257, 256],
        [u32::MAX, 2, 5],
        [u32::MAX, u32::MAX, u32::MAX],
    ] {
        check_unsound(&holding(before.clone(), task));
    }
    let added = [
        [9, 2, 5, 1, 5, 2, 9, 0],
        [1_000_000, 1, 1_000_000, 0, 0, 0, 0, 0],
    ];
    let sound = holding(before, [1_000_000, 1, 1_000_000]);
    check(&sound, Commit, "DONE", &machine(2, 2, &added));
}

// Number 12: a table of 32 tasks has no place for the held one, one of 31 has.
#[test]
fn a_held_task_beside_32_tasks() {
    let line = [90, 1, 90, 0, 0, 0, 0, 0];
    check_unsound(&holding(machine(32, 16, &[line; 32]), [90, 1, 90]));
    let last = [9, 9, 9, 1, 9, 9, 9, 9];
    let mut lines = [line; 32];
    lines[31] = last;
    let sound = holding(machine(31, 16, &lines), [90, 1, 90]);
    check(&sound, Commit, "DONE", &machine(32, 16, &[line; 32]));
    check(
        &machine(31, 16, &lines),
        Commit,
        "REFUSED 17",
        &machine(31, 16, &lines),
    );
}

// Another fault comes before 17 and before what is held.
#[test]
fn an_unsound_machine_that_holds_a_task_or_none() {
    let line = [6, 3, 5, 1, 4, 2, 3, 0];
    check_unsound(&machine(1, 1, &[line]));
    check_unsound(&holding(machine(1, 1, &[line]), [90, 1, 90]));
    for (count, cores) in [(0, 1), (33, 1), (1, 0), (1, 17)] {
        let sound = [[90, 1, 90, 0, 0, 0, 0, 0]; 32];
        check_unsound(&holding(machine(count, cores, &sound), [90, 1, 90]));
    }
}

// Tasks 4 1 1 and 4 1 4 on 1 core and 5 1 5: the window test refuses the three, the slack
// test does not, and held it is sound. 9 9 9 is refused by both.
#[test]
fn a_held_task_goes_by_the_slack_test() {
    let lines = [[4, 1, 1, 0, 0, 0, 0, 0], [4, 1, 4, 0, 0, 0, 0, 0]];
    let before = machine(2, 1, &lines);
    let after = [lines[0], lines[1], [5, 1, 5, 0, 0, 0, 0, 0]];
    let held = holding(before.clone(), [5, 1, 5]);
    check(&held, Commit, "DONE", &machine(3, 1, &after));
    check(&held, Offer(Task::new(5, 1, 5)), "DONE", &held);
    check_unsound(&holding(before, [9, 9, 9]));
}

// Equal left, 4: task 2 owes more and runs, with the larger gap or the smaller.
#[test]
fn gaps_decide_no_tie() {
    for (one, other) in [(4, 9), (9, 4)] {
        let before = [[9, 3, 9, 1, 4, 1, one, 0], [9, 3, 9, 1, 4, 2, other, 0]];
        let after = [
            [9, 3, 9, 1, 3, 1, one - 1, 0],
            [9, 3, 9, 1, 3, 1, other - 1, 1],
        ];
        check(
            &machine(2, 1, &before),
            Slot(1),
            "2 0 0 1 1",
            &machine(2, 1, &after),
        );
    }
}

// Two tasks on 2 cores are admitted, and yet late: such jobs no call leaves. Task 1
// owes 2 with one slot left; task 2 finishes.
#[test]
fn a_late_job_of_an_admitted_table() {
    let before = [[9, 2, 5, 1, 1, 2, 1, 0], [9, 2, 5, 1, 1, 1, 9, 0]];
    let after = [[9, 2, 5, 0, 0, 0, 0, 1], [9, 2, 5, 0, 0, 0, 8, 2]];
    check(
        &machine(2, 2, &before),
        Slot(2),
        "3 2 1 2 1 2",
        &machine(2, 2, &after),
    );
}

// The text of a machine and a call, byte by byte.
#[test]
fn the_lines_of_a_machine() {
    let lines = [[1, 2, 3, 1, 4, 5, 6, 7], [8, 9, 10, 0, 11, 12, 13, 14]];
    let machine = machine(2, 16, &lines);
    let expected = "MACHINE 2 16\n1 2 3 1 4 5 6 7\n8 9 10 0 11 12 13 14\n".to_string()
        + &"0 0 0 0 0 0 0 0\n".repeat(30);
    let none = Probe {
        machine: machine.clone(),
        call: Offer(Task::new(15, 16, 17)),
    };
    assert_eq!(none.text(), format!("{expected}NONE\nOFFER 15 16 17\n"));
    let held = Probe {
        machine: holding(machine, [18, 19, 20]),
        call: Commit,
    };
    assert_eq!(held.text(), format!("{expected}HELD 18 19 20\nCOMMIT\n"));
}
