//! Offers and commits (document 02, changes 6 and 10): literal sessions of what is held,
//! what displaces it and what a commit adds; sessions in which a task is added that the
//! window test would refuse, its job is released and runs to its deadline; and offers of
//! every table that was found by search.

use edzl_tests::found::{FOUND, Found};
use edzl_tests::probe::{Entry, HandMade};
use edzl_tests::probe_check;
use edzl_tests::script::Call;
use edzl_tests::sessions::{check, script};
use edzl_tests::tasks::Task;
use edzl_tests::{slack, window};

use Call::{Commit, Finish, Offer, Release, Slot};

const fn task(period: u32, budget: u32, deadline: u32) -> Task {
    Task::new(period, budget, deadline)
}

// Sums and spares of the three tasks on 2 cores, where m·A is 6, 6 and 2·A_3. With
// 10 6 8: 5, 5, 4 and 3, 3, 2, one reaches. With 10 9 10: 2 + 3, 2 + 3, 1 + 1 and 3, 3, 1,
// one reaches. Beside each other they would all reach: 8, 8, 6, 3 of 6, 6, 4, 2.
const EXAMPLE: [Task; 2] = [task(4, 1, 4), task(6, 2, 5)];

// Held are none; 10 6 8; still 10 6 8; 10 9 10; and none again after the commit.
#[test]
fn the_last_offer_is_added() {
    assert!(!slack::admits(
        &[EXAMPLE[0], EXAMPLE[1], task(10, 6, 8), task(10, 9, 10)],
        2
    ));
    let calls = vec![
        Commit,
        Offer(task(10, 6, 8)),
        Offer(task(5, 6, 5)),
        Offer(task(10, 9, 10)),
        Release(3, 1),
        Commit,
        Release(3, 10),
        Release(3, 9),
        Commit,
    ];
    let printed = "REFUSED 17\nDONE\nREFUSED 5\nDONE\nREFUSED 8\nDONE\n\
        REFUSED 15\nDONE\nREFUSED 17\n";
    check(&script(2, &EXAMPLE, calls), printed);
}

// Refused by 5 and by 13, the later offers leave the first held: C of the added task is 6.
#[test]
fn a_refused_offer_leaves_the_first() {
    let calls = |refused: Task| {
        let added = [Commit, Release(3, 7), Release(3, 6), Release(4, 1)];
        [&[Offer(task(10, 6, 8)), Offer(refused)][..], &added].concat()
    };
    let printed = "DONE\nREFUSED 5\nDONE\nREFUSED 15\nDONE\nREFUSED 8\n";
    for unfit in [task(5, 6, 5), task(4, 0, 4), task(0, 0, 0)] {
        check(&script(2, &EXAMPLE, calls(unfit)), printed);
    }
    // On 1 core beside one task 20 2 10 of spare 8: 40 6 30 takes 6 of it, 10 10 10 all.
    let first = [Offer(task(40, 6, 30)), Offer(task(10, 10, 10)), Commit];
    let calls = [&first[..], &[Release(2, 7), Release(2, 6)]].concat();
    let printed = "DONE\nREFUSED 13\nDONE\nREFUSED 15\nDONE\n";
    check(&script(1, &[task(20, 2, 10)], calls), printed);
}

// Task 2 runs alone on core 1 and owes one slot more; the commit adds task 3, which then
// runs beside it on core 2 for its six slots. All close by their deadlines, 5 and 8.
#[test]
fn an_offer_a_slot_and_a_commit_within_a_job() {
    let mut calls = vec![Release(2, 2), Offer(task(10, 6, 8)), Slot(2), Commit];
    calls.push(Release(3, 6));
    calls.extend([Slot(2); 7]);
    let printed = "DONE\nDONE\n2 0 0 1 1\nDONE\nDONE\n6 2 0 2 1 2\n4 0 0 1 2\n4 0 0 1 2\n\
        4 0 0 1 2\n4 0 0 1 2\n4 4 0 1 2\n0 0 0 0\n";
    check(&script(2, &EXAMPLE, calls), printed);
}

// Releases, finishes, slots and refused calls of every kind keep the held task.
#[test]
fn calls_between_an_offer_and_its_commit() {
    let calls = vec![
        Offer(task(10, 6, 8)),
        Release(1, 1),
        Release(1, 1),
        Release(2, 3),
        Finish(2),
        Finish(3),
        Finish(1),
        Slot(1),
        Slot(17),
        Slot(2),
        Offer(task(8, 0, 8)),
        Release(2, 1),
        Slot(3),
        Commit,
        Release(3, 6),
        Commit,
        Slot(2),
    ];
    let printed = "DONE\nDONE\nREFUSED 9\nREFUSED 15\nREFUSED 11\nREFUSED 8\nDONE\n\
        REFUSED 14\nREFUSED 14\n0 0 0 0\nREFUSED 5\nDONE\n2 2 0 1 1\n\
        DONE\nDONE\nREFUSED 17\n4 0 0 1 1\n";
    check(&script(2, &EXAMPLE, calls), printed);
}

// The same task may be offered twice, and added twice by two offers and two commits.
#[test]
fn the_same_task_again() {
    let light = task(100, 1, 100);
    let calls = vec![
        Offer(light),
        Offer(light),
        Commit,
        Commit,
        Release(4, 1),
        Offer(light),
        Commit,
        Release(4, 1),
        Release(5, 1),
    ];
    let printed = "DONE\nDONE\nDONE\nREFUSED 17\nREFUSED 8\nDONE\nDONE\nDONE\nREFUSED 8\n";
    check(&script(2, &EXAMPLE, calls), printed);
}

// The 32nd task is offered and added; then no other is, and none is held.
#[test]
fn offers_up_to_32_tasks() {
    let light = task(1_000, 1, 1_000);
    let calls = vec![
        Offer(light),
        Release(32, 1),
        Offer(task(1_000, 2, 1_000)),
        Slot(16),
        Commit,
        Offer(task(1_000, 0, 1_000)),
        Offer(light),
        Commit,
        Release(32, 2),
        Slot(16),
    ];
    let printed = "DONE\nREFUSED 8\nDONE\n0 0 0 0\nDONE\nREFUSED 5\nREFUSED 12\nREFUSED 17\n\
        DONE\n2147483648 0 0 1 1\n";
    check(&script(16, &[light; 31], calls), printed);
}

// A table that is not admitted takes no offer, however light, and its calls go on.
#[test]
fn a_table_that_is_not_admitted() {
    let full = task(5, 5, 5);
    let calls = vec![
        Offer(task(1_000_000, 1, 1_000_000)),
        Commit,
        Release(1, 5),
        Offer(task(1_000_000, 1, 1_000_000)),
        Slot(1),
        Commit,
    ];
    let printed = "REFUSED 13\nREFUSED 17\nDONE\nREFUSED 13\n1 0 0 1 1\nREFUSED 17\n";
    check(&script(1, &[full; 2], calls), printed);
}

// Tasks 1 and 3 count by the window test. Task 2 has a slack of 1, which leaves task 3
// the sum 3 below its spare. All jobs close by their deadlines, 1, 4 and 5.
#[test]
fn a_third_task_on_one_core() {
    let (table, offered) = ([task(4, 1, 1), task(4, 1, 4)], task(5, 1, 5));
    assert!(!window::admits(&[table[0], table[1], offered], 1));
    let calls = vec![
        Offer(offered),
        Commit,
        Release(3, 1),
        Slot(1),
        Release(1, 1),
        Release(2, 1),
        Slot(1),
        Slot(1),
        Slot(1),
        Release(3, 1),
        Slot(1),
        Release(1, 1),
        Release(3, 1),
        Slot(1),
    ];
    let printed = "DONE\nDONE\nDONE\n4 4 0 1 1\nDONE\nDONE\n1 1 0 1 1\n2 2 0 1 1\n0 0 0 0\n\
        REFUSED 9\n0 0 0 0\nDONE\nDONE\n1 1 0 1 1\n";
    check(&script(1, &table, calls), printed);
}

// Document 002's four tasks on 2 cores, the last of which is offered. Tasks 1 and 2 are
// released as often as they may, and task 4 runs in the slots that they leave.
#[test]
fn the_fourth_task_of_document_002() {
    let table = [task(2, 1, 2), task(2, 1, 2), task(7, 1, 7)];
    let offered = task(8, 3, 8);
    assert!(!window::admits(&[table[0], table[1], table[2], offered], 2));
    let both = [Release(1, 1), Release(2, 1), Slot(2), Slot(2)];
    let mut calls = vec![Offer(offered), Commit, Release(3, 1), Release(4, 3)];
    calls.extend([both, both, both].concat());
    let printed = "DONE\nDONE\nDONE\nDONE\n\
        DONE\nDONE\n3 3 0 2 1 2\n12 4 0 2 1 2\n\
        DONE\nDONE\n3 3 0 2 1 2\n8 0 0 1 1\n\
        DONE\nDONE\n3 3 0 2 1 2\n8 8 0 1 1\n";
    check(&script(2, &table, calls), printed);
}

// A fifth one is added to a table that the window test refuses already, and others are not.
#[test]
fn offers_after_such_a_commit() {
    let table = [task(2, 1, 2), task(2, 1, 2), task(7, 1, 7)];
    let calls = vec![
        Offer(task(8, 3, 8)),
        Commit,
        Offer(task(8, 3, 8)),
        Offer(task(8, 1, 8)),
        Offer(task(9, 9, 9)),
        Release(5, 1),
        Offer(task(40, 1, 40)),
        Commit,
        Release(5, 1),
        Release(4, 3),
        Slot(2),
    ];
    let printed = "DONE\nDONE\nREFUSED 13\nREFUSED 13\nREFUSED 13\nREFUSED 8\n\
        DONE\nDONE\nDONE\nDONE\n\
        24 16 0 2 1 2\n";
    check(&script(2, &table, calls), printed);
}

// Refused by both tests, whether or not slacks change in between. A lighter task is taken
// by both.
#[test]
fn offers_that_both_tests_refuse() {
    let full = task(5, 5, 5);
    check(&script(1, &[full], vec![Offer(full)]), "REFUSED 13\n");
    let table = [task(10, 9, 10), task(10, 6, 10)];
    let calls = vec![Offer(task(5, 2, 5)), Offer(task(5, 1, 5))];
    assert!(window::admits(&[table[0], table[1], task(5, 1, 5)], 2));
    check(&script(2, &table, calls), "REFUSED 13\nDONE\n");
    let bound = [task(5, 3, 5), task(6, 1, 6), task(8, 4, 8), task(10, 1, 10)];
    let calls = vec![Offer(task(11, 1, 11))];
    check(&script(2, &bound, calls), "REFUSED 13\n");
}

// The verdict goes by m, whatever k the slots have.
#[test]
fn offers_go_by_m() {
    let table = [task(2, 1, 2), task(2, 1, 2), task(7, 1, 7)];
    let calls = vec![
        Slot(3),
        Offer(task(8, 5, 8)),
        Slot(16),
        Offer(task(8, 5, 8)),
    ];
    let printed = "0 0 0 0\nREFUSED 13\n0 0 0 0\nREFUSED 13\n";
    check(&script(2, &table, calls), printed);
}

// The last task and those before it.
fn split(found: &Found) -> (Task, &[Task]) {
    let (last, before) = found.table.split_last().expect("a task");
    (*last, before)
}

fn answer(found: &Found) -> &'static str {
    if found.admitted { "DONE" } else { "REFUSED 13" }
}

#[test]
fn offers_of_the_tables_found() {
    for found in &FOUND {
        let (last, before) = split(found);
        let script = script(found.cores, before, vec![Offer(last), Commit]);
        let commit = if found.admitted { "DONE" } else { "REFUSED 17" };
        check(&script, &format!("{}\n{commit}\n", answer(found)));
    }
}

// A machine of the tasks before the last, and past them tasks that are no part of the
// table: read as such, they would change every sum.
fn beside_others(found: &Found, before: &[Task]) -> HandMade {
    let mut machine = HandMade {
        count: u32::try_from(before.len()).expect("a few tasks"),
        cores: found.cores,
        entries: [Entry::fresh(task(1, 1, 1)); 32],
        offered: None,
    };
    for (entry, task) in machine.entries.iter_mut().zip(before) {
        *entry = Entry::fresh(*task);
    }
    machine
}

#[test]
fn entries_past_the_count_play_no_part() {
    for found in &FOUND {
        let (last, before) = split(found);
        let machine = beside_others(found, before);
        let mut held = machine.clone();
        held.offered = found.admitted.then_some(last);
        probe_check::check(&machine, Offer(last), answer(found), &held);
        held.offered = Some(last);
        if !found.admitted {
            probe_check::check(&held, Commit, "REFUSED 0", &held);
            continue;
        }
        let mut after = machine;
        after.entries[before.len()] = Entry::fresh(last);
        after.count += 1;
        probe_check::check(&held, Commit, "DONE", &after);
    }
}
