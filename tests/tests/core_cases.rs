//! Literal cases of document 02, change 4, worked out on paper: which core each runner
//! has, and what the machine records, by the simulated machine and by the programs. An
//! entry is written as its line: T C D, open, left, budget still owed, gap, core.

use edzl_tests::probe_check::{Line, check, check_unsound, holding, machine};
use edzl_tests::script::{Call, MOST_SCRIPT_BYTES};
use edzl_tests::sessions;
use edzl_tests::tasks::Task;

use Call::{Commit, Finish, Offer, Release, Slot};

// A closed task that is due, and an open job of left 9 and budget 4.
const DUE: Line = [20, 5, 10, 0, 0, 0, 0, 0];
const OPEN: Line = [20, 5, 10, 1, 9, 4, 19, 0];

// The cores of 16 runners that have them in rising number.
const ALL_16: &str = "1 2 3 4 5 6 7 8 9 10 11 12 13 14 15 16";

fn on_core(line: Line, core: u32) -> Line {
    let [period, budget, deadline, open, left, owed, gap, _] = line;
    [period, budget, deadline, open, left, owed, gap, core]
}

// Calls on a fresh machine, and all that is printed for them.
fn check_calls(cores: u32, table: &[Task], calls: &[Call], expected: &str) {
    let script = sessions::script(cores, table, calls.to_vec());
    sessions::check(&script, expected);
}

// The machine of these entries, which the call leaves as it is.
fn check_left(cores: u32, lines: &[Line], call: Call, answer: &str) {
    let count = u32::try_from(lines.len()).expect("at most 32 tasks");
    let machine = machine(count, cores, lines);
    check(&machine, call, answer, &machine);
}

// Task 2 is urgent and goes first, but core 1 is kept by task 1: one pass over the
// runners would give it to task 2.
#[test]
fn a_keeper_second_in_precedence() {
    let table = [Task::new(20, 5, 10), Task::new(20, 5, 5)];
    let calls = [Release(1, 5), Slot(2), Release(2, 5), Slot(2)];
    check_calls(2, &table, &calls, "DONE\n1 0 0 1 1\nDONE\n3 0 0 2 1 2\n");
    let before = [[20, 5, 10, 1, 9, 4, 19, 1], [20, 5, 5, 1, 5, 5, 20, 0]];
    let after = [[20, 5, 10, 1, 8, 3, 18, 1], [20, 5, 5, 1, 4, 4, 19, 2]];
    let (before, after) = (machine(2, 2, &before), machine(2, 2, &after));
    check(&before, Slot(2), "3 0 0 2 1 2", &after);
}

// Each keeps its own, though precedence or the number would have it the other way.
#[test]
fn two_keepers_across() {
    let before = [on_core(OPEN, 2), on_core(OPEN, 1)];
    let after = [[20, 5, 10, 1, 8, 3, 18, 2], [20, 5, 10, 1, 8, 3, 18, 1]];
    let (before, after) = (machine(2, 2, &before), machine(2, 2, &after));
    check(&before, Slot(2), "3 0 0 2 2 1", &after);
}

// In precedence 3, 2, 1. Task 3 keeps core 2; then task 2 takes core 1 and task 1
// core 3. By their numbers task 1 would take core 1.
#[test]
fn the_others_take_cores_in_precedence() {
    let before = [
        [9, 2, 9, 1, 9, 2, 9, 0],
        [9, 2, 9, 1, 8, 2, 9, 0],
        [9, 2, 9, 1, 7, 2, 9, 2],
    ];
    let after = [
        [9, 2, 9, 1, 8, 1, 8, 3],
        [9, 2, 9, 1, 7, 1, 8, 1],
        [9, 2, 9, 1, 6, 1, 8, 2],
    ];
    let (before, after) = (machine(3, 3, &before), machine(3, 3, &after));
    check(&before, Slot(3), "7 0 0 3 3 1 2", &after);
}

// Task 1 goes first and has core 3. On 2 cores it takes core 2, since task 2 keeps
// core 1; on 3 cores both keep theirs.
#[test]
fn a_core_above_k() {
    let before = [[9, 3, 9, 1, 5, 3, 9, 3], [9, 3, 9, 1, 6, 3, 9, 1]];
    for (k, core) in [(2, 2), (3, 3), (16, 3)] {
        let after = [[9, 3, 9, 1, 4, 2, 8, core], [9, 3, 9, 1, 5, 2, 8, 1]];
        let (before, after) = (machine(2, 1, &before), machine(2, 1, &after));
        check(&before, Slot(k), &format!("3 0 0 2 {core} 1"), &after);
    }
}

// Tasks 1 to 5 have cores 1 to 5 in a slot of 5. Of tasks 1 and 5 the second keeps
// core 5 on k = 5, takes core 2 on k = 4, and keeps that one from then on.
#[test]
fn core_5_on_five_cores_and_on_four() {
    let mut calls: Vec<Call> = (1..=5).map(|number| Release(number, 20)).collect();
    calls.extend([Slot(5), Finish(2), Finish(3), Finish(4)]);
    calls.extend([5, 4, 5].map(Slot));
    let expected = "DONE\n".repeat(5)
        + "31 0 0 5 1 2 3 4 5\nDONE\nDONE\nDONE\n17 0 0 2 1 5\n17 0 0 2 1 2\n17 0 0 2 1 2\n";
    check_calls(4, &[Task::new(50, 20, 40); 5], &calls, &expected);
}

// Whichever task of three is left after two are finished has the one core there is.
#[test]
fn two_of_three_tasks_finished_before_a_slot_of_one_core() {
    for (finished, ran) in [([2, 3], 1), ([1, 3], 2), ([1, 2], 4)] {
        let mut calls = vec![Release(1, 5), Release(2, 5), Release(3, 5), Slot(3)];
        calls.extend(finished.map(Finish));
        calls.extend([Slot(1), Slot(3)]);
        let expected =
            format!("DONE\nDONE\nDONE\n7 0 0 3 1 2 3\nDONE\nDONE\n{ran} 0 0 1 1\n{ran} 0 0 1 1\n");
        check_calls(1, &[Task::new(20, 5, 10); 3], &calls, &expected);
    }
}

// Task 2 finishes in each of its slots and is due again at once: the new job keeps
// core 2, also when core 1 is free. After a slot without it it takes core 1.
#[test]
fn a_finished_task_released_again_at_once() {
    let table = [Task::new(9, 5, 9), Task::new(1, 1, 1)];
    let mut calls = vec![Release(1, 5), Slot(2), Release(2, 1), Slot(2)];
    calls.extend([Release(2, 1), Finish(1), Slot(2), Release(2, 1), Slot(2)]);
    calls.extend([Slot(2), Release(2, 1), Slot(2)]);
    let expected = "DONE\n1 0 0 1 1\nDONE\n3 2 0 2 1 2\n\
        DONE\nDONE\n2 2 0 1 2\nDONE\n2 2 0 1 2\n\
        0 0 0 0\nDONE\n2 2 0 1 1\n";
    check_calls(2, &table, &calls, expected);
}

// The same of a job that is late: its core stays through the slot, the release and
// the finish of another task.
#[test]
fn a_late_task_released_again_at_once() {
    let states = [
        [on_core(OPEN, 1), [2, 2, 2, 1, 1, 2, 1, 2]],
        [[20, 5, 10, 1, 8, 3, 18, 1], [2, 2, 2, 0, 0, 0, 0, 2]],
        [[20, 5, 10, 1, 8, 3, 18, 1], [2, 2, 2, 1, 2, 2, 2, 2]],
        [[20, 5, 10, 0, 0, 0, 18, 1], [2, 2, 2, 1, 2, 2, 2, 2]],
        [[20, 5, 10, 0, 0, 0, 17, 0], [2, 2, 2, 1, 1, 1, 1, 2]],
    ];
    let states = states.map(|lines| machine(2, 2, &lines));
    check(&states[0], Slot(2), "3 0 2 2 1 2", &states[1]);
    check(&states[1], Release(2, 2), "DONE", &states[2]);
    check(&states[2], Finish(1), "DONE", &states[3]);
    check(&states[3], Slot(2), "2 0 0 1 2", &states[4]);
}

// Cores 1 and 2, then a slot of nobody: task 2 alone takes core 1 afterwards.
#[test]
fn a_slot_in_which_nobody_runs() {
    let mut calls = vec![Release(1, 1), Release(2, 1)];
    calls.extend([Slot(2); 4]);
    calls.extend([Release(2, 1), Slot(2)]);
    let expected = "DONE\nDONE\n3 3 0 2 1 2\n0 0 0 0\n0 0 0 0\n0 0 0 0\nDONE\n2 2 0 1 1\n";
    check_calls(2, &[Task::new(4, 1, 4); 2], &calls, expected);
    let before = [[9, 2, 5, 0, 0, 0, 4, 3], [9, 2, 5, 0, 0, 0, 0, 16]];
    let after = [[9, 2, 5, 0, 0, 0, 3, 0], [9, 2, 5, 0, 0, 0, 0, 0]];
    let (before, after) = (machine(2, 1, &before), machine(2, 1, &after));
    check(&before, Slot(1), "0 0 0 0", &after);
}

// Task 1 waits and loses its core, which task 2 takes. When task 1 is back, it takes
// what is free: a record that is not cleared would give it core 1 again.
#[test]
fn a_task_that_waits_for_a_slot() {
    let table = [Task::new(50, 20, 40), Task::new(50, 3, 3)];
    let calls = [
        Release(1, 20),
        Slot(1),
        Release(2, 3),
        Slot(1),
        Slot(2),
        Slot(1),
    ];
    let expected = "DONE\n1 0 0 1 1\nDONE\n2 0 0 1 1\n3 0 0 2 2 1\n2 2 0 1 1\n";
    check_calls(1, &table, &calls, expected);
}

// A commit between two slots: task 2 keeps core 2, and the added task has none until it
// takes core 1.
#[test]
fn a_commit_between() {
    let table = [Task::new(20, 5, 10); 2];
    let mut calls = vec![Release(1, 5), Offer(Task::new(20, 1, 20)), Release(2, 5)];
    calls.extend([Slot(2), Finish(1), Commit, Slot(2), Release(3, 1), Slot(2)]);
    let expected = "DONE\nDONE\nDONE\n3 0 0 2 1 2\nDONE\nDONE\n2 0 0 1 2\nDONE\n6 4 0 2 2 1\n";
    check_calls(2, &table, &calls, expected);
}

// It keeps every record and writes 0 into its own entry, whatever stood there.
#[test]
fn the_record_after_a_commit() {
    let (open, past) = (on_core(OPEN, 2), [7, 7, 7, 1, 7, 7, 7, 9]);
    let before = holding(machine(1, 2, &[open, past, past]), [20, 1, 20]);
    let after = machine(2, 2, &[open, [20, 1, 20, 0, 0, 0, 0, 0], past]);
    check(&before, Commit, "DONE", &after);
}

// A k below m or above 16 is no slot: task 2 keeps core 2 past it.
#[test]
fn a_refused_slot_between() {
    let mut calls = vec![Release(1, 5), Release(2, 5), Slot(2), Finish(1)];
    calls.extend([Slot(1), Slot(17), Slot(0), Slot(2)]);
    let refused = "REFUSED 14\n".repeat(3);
    let expected = format!("DONE\nDONE\n3 0 0 2 1 2\nDONE\n{refused}2 0 0 1 2\n");
    check_calls(2, &[Task::new(20, 5, 10); 2], &calls, &expected);
}

#[test]
fn the_record_after_refused_calls() {
    let lines = [on_core(OPEN, 5), on_core(DUE, 16)];
    for k in [0, 1, 17, u32::MAX] {
        check_left(2, &lines, Slot(k), "REFUSED 14");
    }
    check_left(2, &lines, Release(1, 5), "REFUSED 9");
    check_left(2, &lines, Release(3, 5), "REFUSED 8");
    check_left(2, &lines, Finish(2), "REFUSED 11");
    check_left(2, &lines, Finish(0), "REFUSED 8");
    check_left(2, &lines, Offer(Task::new(4, 5, 4)), "REFUSED 5");
    check_left(1, &lines, Offer(Task::new(10, 10, 10)), "REFUSED 13");
    check_left(2, &lines, Commit, "REFUSED 17");
}

#[test]
fn the_record_after_a_finish_and_a_release() {
    let before = machine(2, 1, &[on_core(OPEN, 3), on_core(DUE, 16)]);
    let finished = [[20, 5, 10, 0, 0, 0, 19, 3], on_core(DUE, 16)];
    check(&before, Finish(1), "DONE", &machine(2, 1, &finished));
    let released = [on_core(OPEN, 3), [20, 5, 10, 1, 10, 5, 20, 16]];
    check(&before, Release(2, 5), "DONE", &machine(2, 1, &released));
}

// Core 16 is sound. It is kept on 16 cores and above k on 15.
#[test]
fn a_record_of_core_16() {
    for (k, core) in [(16, 16), (15, 1), (1, 1)] {
        let before = machine(1, 1, &[on_core(OPEN, 16)]);
        let after = machine(1, 1, &[[20, 5, 10, 1, 8, 3, 18, core]]);
        check(&before, Slot(k), &format!("1 0 0 1 {core}"), &after);
    }
}

// Core 17 and above are not, of an open task and of a closed one.
#[test]
fn records_above_16() {
    for core in [17, 18, 32, 33, 256 + 1, 65_536 + 16, u32::MAX] {
        for line in [DUE, OPEN] {
            check_unsound(&machine(1, 1, &[on_core(line, core)]));
            check_unsound(&machine(2, 16, &[DUE, on_core(line, core)]));
        }
    }
}

// One core of two tasks, whichever they are: open, closed, neighbours or not.
#[test]
fn a_core_recorded_twice() {
    for core in [1, 2, 15, 16] {
        for (one, other) in [(OPEN, OPEN), (OPEN, DUE), (DUE, OPEN), (DUE, DUE)] {
            let (one, other) = (on_core(one, core), on_core(other, core));
            check_unsound(&machine(2, 1, &[one, other]));
            check_unsound(&machine(3, 1, &[one, DUE, other]));
        }
    }
    let mut lines = [DUE; 32];
    (lines[0], lines[31]) = (on_core(DUE, 7), on_core(DUE, 7));
    check_unsound(&machine(32, 16, &lines));
}

// 0 is no core: any number of tasks may have it. The machine goes on.
#[test]
fn no_core_recorded_twice() {
    check_left(2, &[OPEN, OPEN, DUE, DUE], Release(1, 5), "REFUSED 9");
    let before = machine(3, 2, &[OPEN, on_core(DUE, 1), OPEN]);
    let run = [20, 5, 10, 1, 8, 3, 18, 0];
    let after = machine(3, 2, &[on_core(run, 1), DUE, on_core(run, 2)]);
    check(&before, Slot(2), "5 0 0 2 1 2", &after);
    check_left(16, &[DUE; 32], Finish(32), "REFUSED 11");
}

// Entries past the count are no part of the machine: the same core again, and one
// above 16, are sound there, and no slot clears them.
#[test]
fn cores_past_the_count() {
    for core in [1, 2, 16, 17, u32::MAX] {
        for past in [on_core(OPEN, core), on_core(DUE, core)] {
            let before = machine(1, 1, &[on_core(OPEN, 2), past, past]);
            let after = machine(1, 1, &[[20, 5, 10, 1, 8, 3, 18, 2], past, past]);
            check(&before, Slot(2), "1 0 0 1 2", &after);
            let after = machine(1, 1, &[[20, 5, 10, 1, 8, 3, 18, 1], past, past]);
            check(&before, Slot(1), "1 0 0 1 1", &after);
            let after = machine(1, 1, &[[20, 5, 10, 0, 0, 0, 19, 2], past, past]);
            check(&before, Finish(1), "DONE", &after);
        }
    }
}

// All 16 cores belong to tasks that do not run: the 16 others take them in turn, and
// the records of the first 16 are cleared.
#[test]
fn every_core_passes_to_another_task() {
    let (mut before, mut after) = ([OPEN; 32], [on_core(OPEN, 0); 32]);
    for (index, core) in (0..16).zip(1..) {
        before[index] = on_core(DUE, core);
        after[index] = DUE;
        after[index + 16] = [20, 5, 10, 1, 8, 3, 18, core];
    }
    let answer = format!("4294901760 0 0 16 {ALL_16}");
    let (before, after) = (machine(32, 16, &before), machine(32, 16, &after));
    check(&before, Slot(16), &answer, &after);
}

// A long answer before a long machine: past the count every number has 10 digits.
#[test]
fn sixteen_runners_before_the_longest_entries() {
    let most = u32::MAX;
    let past = [most, most, most, 1, most, most, most, most];
    let (mut before, mut after) = ([past; 32], [past; 32]);
    for (index, core) in (0..16).zip(1..) {
        before[index] = OPEN;
        after[index] = [20, 5, 10, 1, 8, 3, 18, core];
    }
    let (before, after) = (machine(16, 1, &before), machine(16, 1, &after));
    check(&before, Slot(16), &format!("65535 0 0 16 {ALL_16}"), &after);
}

// The longest script, in which every slot has 16 runners: tasks 17 to 32.
#[test]
fn sixteen_runners_in_every_slot_of_the_longest_script() {
    let table = [Task::new(1_000_000, 500_000, 1_000_000); 32];
    let mut calls: Vec<Call> = (17..=32).map(|number| Release(number, 500_000)).collect();
    let start = sessions::script(16, &table, calls.clone()).text().len();
    let slots = (MOST_SCRIPT_BYTES - start) / "SLOT 16\n".len();
    calls.extend(vec![Slot(16); slots]);
    let line = format!("4294901760 0 0 16 {ALL_16}\n");
    let expected = "DONE\n".repeat(16) + &line.repeat(slots);
    check_calls(16, &table, &calls, &expected);
}
