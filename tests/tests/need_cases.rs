//! Literal cases of document 02, change 5, worked out on paper: a release names its
//! job's need, e, by the simulated machine and by the programs. In the comments a job is
//! written as its left and its budget. An entry is written as its line: T C D, open,
//! left, budget still owed, gap, core.

use edzl_tests::probe_check::{Line, check, machine};
use edzl_tests::program;
use edzl_tests::script::Call;
use edzl_tests::sessions;
use edzl_tests::tasks::Task;

use Call::{Commit, Finish, Offer, Release, Slot};

const LONGEST: u32 = 1_000_000;

// Tasks 6, 3, 5: one that is due, one just released, and one whose job ran and closed.
const DUE: Line = [6, 3, 5, 0, 0, 0, 0, 0];
const OPEN: Line = [6, 3, 5, 1, 5, 3, 6, 0];
const CLOSED: Line = [6, 3, 5, 0, 0, 0, 2, 0];

// Calls on a fresh machine, and all that is printed for them.
fn check_calls(cores: u32, table: &[Task], calls: &[Call], expected: &str) {
    let script = sessions::script(cores, table, calls.to_vec());
    sessions::check(&script, expected);
}

// Each task released with its need on 1 core, then slots in which one task runs, on
// core 1, from what each of them prints before.
fn check_needs(table: &[Task], needs: &[u32], slots: &[&str]) {
    let released = (1..)
        .zip(needs)
        .map(|(number, need)| Release(number, *need));
    let mut calls: Vec<Call> = released.collect();
    calls.extend(vec![Slot(1); slots.len()]);
    let ran: String = slots.iter().map(|slot| format!("{slot} 1 1\n")).collect();
    check_calls(1, table, &calls, &("DONE\n".repeat(needs.len()) + &ran));
}

// A call that is refused and leaves the machine of these entries as it is.
fn check_left(cores: u32, lines: &[Line], call: Call, answer: &str) {
    let count = u32::try_from(lines.len()).expect("at most 32 tasks");
    let machine = machine(count, cores, lines);
    check(&machine, call, answer, &machine);
}

// 3,1 and 5,5: task 2 is urgent; then 2,1 and 4,4: task 2; 1,1 and 3,3: task 1. Task 2 is
// late. With 5,4 and less it is not urgent and task 1 goes first.
#[test]
fn the_need_decides_who_is_urgent() {
    let table = [Task::new(9, 1, 3), Task::new(9, 5, 5)];
    check_needs(&table, &[1, 1], &["1 1 0", "2 2 0"]);
    check_needs(&table, &[1, 2], &["1 1 0", "2 0 0", "2 2 0"]);
    check_needs(&table, &[1, 3], &["1 1 0", "2 0 0", "2 0 0", "2 2 0"]);
    let slots = ["1 1 0", "2 0 0", "2 0 0", "2 0 0", "2 2 0"];
    check_needs(&table, &[1, 4], &slots);
    let slots = ["2 0 0", "2 0 0", "1 1 0", "2 0 0", "2 0 2"];
    check_needs(&table, &[1, 5], &slots);
}

// The spares are 2 and each sum is min(3, 2): 2 is at least 1 · 2 and below 2 · 2.
#[test]
fn the_verdict_on_two_tasks_6_3_5() {
    let text = b"PERIOD BUDGET DEADLINE\n6 3 5\n6 3 5\n";
    let expected = b"CORES COUNT ADMIT\n1 2 0\n2 0 1\n";
    assert_eq!(program::verdict_output(text), expected);
}

#[test]
fn refusals_in_their_order() {
    let calls = [
        Release(1, 0),
        Release(1, 4),
        Release(3, 0),
        Release(3, 4),
        Release(0, 0),
        Release(0, 3),
        Release(1, 3),
        Release(1, 0),
        Release(1, 4),
        Release(1, 1),
        Release(1, 3),
        Release(2, u32::MAX),
        Release(2, 1),
        Release(2, 0),
        Release(2, 2),
        Finish(1),
        Release(1, 0),
        Release(1, 4),
        Release(1, 2),
    ];
    let answers = "REFUSED 15\nREFUSED 15\nREFUSED 8\nREFUSED 8\nREFUSED 8\nREFUSED 8\n\
        DONE\nREFUSED 15\nREFUSED 15\nREFUSED 9\nREFUSED 9\n\
        REFUSED 15\nDONE\nREFUSED 15\nREFUSED 9\n\
        DONE\nREFUSED 15\nREFUSED 15\nREFUSED 9\n";
    for cores in [1, 2] {
        let mut calls = calls.to_vec();
        calls.push(Slot(cores));
        let expected = format!("{answers}2 2 0 1 1\n");
        check_calls(cores, &[Task::new(6, 3, 5); 2], &calls, &expected);
    }
}

// The same on machines made by hand, which stay as they were: no gap is set.
#[test]
fn refusals_leave_the_machine() {
    for cores in [1, 2] {
        let lines = [DUE, OPEN, CLOSED];
        for number in [1, 2, 3] {
            for need in [0, 4, 5, 6, 256 + 3, 65_536 + 1, u32::MAX] {
                check_left(cores, &lines, Release(number, need), "REFUSED 15");
            }
        }
        for number in [0, 4, u32::MAX] {
            for need in [0, 1, 3, 4, u32::MAX] {
                check_left(cores, &lines, Release(number, need), "REFUSED 8");
            }
        }
        for (number, need) in [(2, 1), (2, 2), (2, 3), (3, 1), (3, 3)] {
            check_left(cores, &lines, Release(number, need), "REFUSED 9");
        }
    }
}

// The first task's gap is below its left: 0 before 8, before 15 and before 9.
#[test]
fn number_0_before_all_of_them() {
    let unsound = [6, 3, 5, 1, 4, 2, 3, 0];
    for cores in [1, 2] {
        for number in [0, 1, 2, 3, 4] {
            for need in [0, 1, 3, 4, u32::MAX] {
                let call = Release(number, need);
                check_left(cores, &[unsound, DUE, OPEN], call, "REFUSED 0");
            }
        }
    }
}

// Cases j and k, and the session of ties, with what they printed before releases had
// needs.
#[test]
fn whole_needs_are_the_former_releases() {
    let table = [Task::new(6, 2, 3), Task::new(6, 2, 3), Task::new(6, 5, 6)];
    let mut calls = vec![Release(1, 2), Release(2, 2), Release(3, 5)];
    calls.extend([Slot(2); 6]);
    let expected = "DONE\nDONE\nDONE\n\
        3 0 0 2 1 2\n5 1 0 2 1 2\n6 2 0 2 1 2\n4 0 0 1 2\n4 0 0 1 2\n4 4 0 1 2\n";
    check_calls(2, &table, &calls, expected);
    let slots = ["1 0 0", "2 0 0", "1 0 0", "2 0 0", "1 0 3"];
    check_needs(&[Task::new(5, 5, 5); 2], &[5, 5], &slots);
    let table = [Task::new(9, 1, 4), Task::new(9, 3, 4)];
    check_needs(&table, &[1, 3], &["2 0 0", "2 0 0", "1 1 0", "2 2 0"]);
}

// Case j again with a smaller need of task 3: in slot 2 it is 5,4 or less and not urgent,
// so that tasks 1 and 2 finish first. Then it runs alone, on core 1.
#[test]
fn case_j_with_smaller_needs() {
    let table = [Task::new(6, 2, 3), Task::new(6, 2, 3), Task::new(6, 5, 6)];
    let ends = [
        (1, "4 4 0 1 1\n0 0 0 0\n0 0 0 0\n0 0 0 0\n"),
        (2, "4 0 0 1 1\n4 4 0 1 1\n0 0 0 0\n0 0 0 0\n"),
        (3, "4 0 0 1 1\n4 0 0 1 1\n4 4 0 1 1\n0 0 0 0\n"),
        (4, "4 0 0 1 1\n4 0 0 1 1\n4 0 0 1 1\n4 4 0 1 1\n"),
    ];
    for (need, end) in ends {
        let mut calls = vec![Release(1, 2), Release(2, 2), Release(3, need)];
        calls.extend([Slot(2); 6]);
        let expected = format!("DONE\nDONE\nDONE\n3 0 0 2 1 2\n3 3 0 2 1 2\n{end}");
        check_calls(2, &table, &calls, &expected);
    }
}

#[test]
fn a_need_of_1_finishes_in_its_first_slot() {
    for budget in [1, 2, 3, 256, 65_536, LONGEST] {
        let table = [Task::new(LONGEST, budget, LONGEST)];
        check_needs(&table, &[1], &["1 1 0"]);
        let calls = [Slot(1), Release(1, 1), Slot(1), Slot(1), Release(1, 1)];
        let expected = "0 0 0 0\nDONE\n1 1 0 1 1\n0 0 0 0\nREFUSED 9\n";
        check_calls(1, &table, &calls, expected);
    }
}

// Left is D, 7, and gap is T, 9, whatever e is. Task 2, the cores and what is past the
// count stay.
#[test]
fn the_machine_after_a_release() {
    let (other, past) = ([9, 4, 7, 1, 6, 2, 8, 5], [9, 4, 7, 1, 7, 1, 9, 16]);
    for core in [0, 1, 16] {
        let before = machine(2, 1, &[[9, 4, 7, 0, 0, 0, 0, core], other, past]);
        for need in 1..=4 {
            let after = machine(2, 1, &[[9, 4, 7, 1, 7, need, 9, core], other, past]);
            check(&before, Release(1, need), "DONE", &after);
        }
        check(&before, Release(1, 5), "REFUSED 15", &before);
        check(&before, Release(3, 1), "REFUSED 8", &before);
    }
}

#[test]
fn the_machine_after_a_release_of_the_longest_task() {
    let before = machine(1, 1, &[[LONGEST, 999_999, LONGEST, 0, 0, 0, 0, 0]]);
    for need in [1, 2, 255, 65_536, 999_998, 999_999] {
        let line = [LONGEST, 999_999, LONGEST, 1, LONGEST, need, LONGEST, 0];
        check(&before, Release(1, need), "DONE", &machine(1, 1, &[line]));
    }
    for need in [0, LONGEST, 1_048_577, 2_147_483_649, u32::MAX] {
        check(&before, Release(1, need), "REFUSED 15", &before);
    }
}

// The slot after a release with e of 1 and of 3.
#[test]
fn the_machine_after_the_first_slot() {
    let before = machine(1, 1, &[[9, 4, 7, 1, 7, 1, 9, 0]]);
    let after = machine(1, 1, &[[9, 4, 7, 0, 0, 0, 8, 1]]);
    check(&before, Slot(1), "1 1 0 1 1", &after);
    let before = machine(1, 1, &[[9, 4, 7, 1, 7, 3, 9, 0]]);
    let after = machine(1, 1, &[[9, 4, 7, 1, 6, 2, 8, 1]]);
    check(&before, Slot(1), "1 0 0 1 1", &after);
}

// One C, needs 1 and 3. 4,1 and 4,3: task 2. 3,1 and 3,2: task 2. 2,1 and 2,1: task 1.
#[test]
fn ties_go_by_the_need() {
    let table = [Task::new(9, 3, 4); 2];
    check_needs(&table, &[1, 3], &["2 0 0", "2 0 0", "1 1 0", "2 2 0"]);
    check_needs(&table, &[3, 1], &["1 0 0", "1 0 0", "1 1 0", "2 2 0"]);
}

// Task 1 has the larger C, 4, and the smaller need. 9,1 and 9,2: task 2. 8,1 and 8,1:
// task 1.
#[test]
fn ties_go_by_the_need_and_not_by_c() {
    let table = [Task::new(9, 4, 9), Task::new(9, 2, 9)];
    check_needs(&table, &[1, 2], &["2 0 0", "1 1 0", "2 2 0"]);
    let table = [Task::new(9, 2, 9), Task::new(9, 4, 9)];
    check_needs(&table, &[2, 1], &["1 0 0", "1 1 0", "2 2 0"]);
}

// 9,2 and 9,2: the number, though task 2 has the larger C. 8,1 and 8,2: task 2. 7,1 and
// 7,1: task 1.
#[test]
fn equal_needs_of_different_c() {
    let table = [Task::new(9, 2, 9), Task::new(9, 5, 9)];
    check_needs(&table, &[2, 2], &["1 0 0", "2 0 0", "1 1 0", "2 2 0"]);
}

// Whole budgets make two tasks 5, 5, 5 late on 1 core. Needs 3 and 2 fit: 5,3 and 5,2;
// 4,2 and 4,2; 3,1 and 3,2; 2,1 and 2,1; 1,1. Needs 3 and 3 do not: 5,3 and 5,3; 4,2 and
// 4,3; 3,2 and 3,2; 2,1 and 2,2; 1,1 and 1,1.
#[test]
fn needs_that_fit_and_needs_that_do_not() {
    let table = [Task::new(5, 5, 5); 2];
    let slots = ["1 0 0", "1 0 0", "2 0 0", "1 1 0", "2 2 0"];
    check_needs(&table, &[3, 2], &slots);
    let slots = ["1 0 0", "2 0 0", "1 0 0", "2 0 0", "1 1 2"];
    check_needs(&table, &[3, 3], &slots);
}

// After one slot of three, and before any: the gap stays, and 15 still comes before 9.
#[test]
fn a_finish_before_all_of_the_need() {
    let calls = [Release(1, 3), Slot(1), Finish(1), Slot(1), Release(1, 3)];
    let expected = "DONE\n1 0 0 1 1\nDONE\n0 0 0 0\nREFUSED 9\n";
    check_calls(1, &[Task::new(9, 5, 9)], &calls, expected);
    let calls = [
        Release(1, 2),
        Finish(1),
        Finish(1),
        Release(1, 0),
        Release(1, 6),
        Release(1, 2),
        Slot(1),
    ];
    let expected = "DONE\nDONE\nREFUSED 11\nREFUSED 15\nREFUSED 15\nREFUSED 9\n0 0 0 0\n";
    check_calls(1, &[Task::new(9, 5, 9)], &calls, expected);
}

// A job of need 1 is done in slot 1, and its gap ends with slot 4. The next job has its
// own need, 3, and the one after it 2.
#[test]
fn a_release_as_soon_as_the_gap_ends() {
    let mut calls = vec![Release(1, 1), Slot(1), Release(1, 3)];
    calls.extend([Slot(1), Slot(1), Release(1, 1), Slot(1), Release(1, 3)]);
    calls.extend([Slot(1), Slot(1), Slot(1), Slot(1), Release(1, 2)]);
    calls.extend([Slot(1), Slot(1), Slot(1)]);
    let expected = "DONE\n1 1 0 1 1\nREFUSED 9\n\
        0 0 0 0\n0 0 0 0\nREFUSED 9\n0 0 0 0\nDONE\n\
        1 0 0 1 1\n1 0 0 1 1\n1 1 0 1 1\n0 0 0 0\nDONE\n\
        1 0 0 1 1\n1 1 0 1 1\n0 0 0 0\n";
    check_calls(1, &[Task::new(4, 3, 4)], &calls, expected);
}

// Refused by 15 when it is due, and released with no slot between.
#[test]
fn a_release_right_after_number_15() {
    let mut calls = vec![Release(1, 0), Release(1, 4), Release(1, 2), Slot(1)];
    calls.extend([Slot(1), Slot(1), Slot(1), Release(1, 4), Release(1, 1)]);
    calls.push(Slot(1));
    let expected = "REFUSED 15\nREFUSED 15\nDONE\n1 0 0 1 1\n\
        1 1 0 1 1\n0 0 0 0\n0 0 0 0\nREFUSED 15\nDONE\n\
        1 1 0 1 1\n";
    check_calls(1, &[Task::new(4, 3, 4)], &calls, expected);
}

// The added task takes 1 to its own C, 3. 10,2 and 10,1: task 1. 9,1 and 9,1: task 1.
// Before the commit, and where the offer is refused, there is no such task.
#[test]
fn an_added_task_released_with_a_smaller_need() {
    let mut calls = vec![Offer(Task::new(20, 3, 10)), Release(2, 1), Commit];
    calls.extend([Release(2, 4), Release(2, 0), Release(1, 3), Release(1, 2)]);
    calls.extend([Release(2, 1), Offer(Task::new(9, 9, 9)), Release(3, 9)]);
    calls.extend([Release(3, 0), Slot(1), Slot(1), Slot(1), Slot(1)]);
    let expected = "DONE\nREFUSED 8\nDONE\n\
        REFUSED 15\nREFUSED 15\nREFUSED 15\nDONE\n\
        DONE\nREFUSED 13\nREFUSED 8\n\
        REFUSED 8\n\
        1 0 0 1 1\n1 1 0 1 1\n2 2 0 1 1\n0 0 0 0\n";
    check_calls(1, &[Task::new(20, 2, 10)], &calls, expected);
}

// Later numbers go first. On 4 cores all three run, then task 3 alone, then tasks 2 and 3:
// task 3 keeps core 1.
#[test]
fn small_needs_on_more_cores_than_m() {
    let table = [9, 8, 7].map(|deadline| Task::new(9, 3, deadline));
    let mut calls = vec![Release(1, 1), Release(2, 2), Release(3, 3)];
    calls.extend([Slot(4), Slot(1), Slot(3), Slot(16)]);
    let expected = "DONE\nDONE\nDONE\n7 1 0 3 3 2 1\n4 0 0 1 1\n6 6 0 2 2 1\n0 0 0 0\n";
    check_calls(1, &table, &calls, expected);
}
