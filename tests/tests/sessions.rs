//! Literal sessions: cases j and k of document 01, "Cases at the edges", worked
//! out afresh for changes 2 and 4 of document 02, slots with cores of their own (its
//! change 1), and the two task sets that document 000 simulates.

use edzl_tests::program;
use edzl_tests::script::{Answer, Call, Script, lines};
use edzl_tests::sessions::{check, released_at_once, released_then, script};
use edzl_tests::tasks::Task;

const CASE_J: [Task; 3] = [Task::new(6, 2, 3), Task::new(6, 2, 3), Task::new(6, 5, 6)];
const CASE_J_PRINTED: &str = "DONE\nDONE\nDONE\n\
    3 0 0 2 1 2\n5 1 0 2 1 2\n6 2 0 2 1 2\n4 0 0 1 2\n4 0 0 1 2\n4 4 0 1 2\n";

// Every task released with its whole budget at the start of each of its periods, slots
// on m cores.
fn released_periodically(cores: u32, table: &[Task], slots: u32) -> Script {
    let mut calls = Vec::new();
    for slot in 0..slots {
        let due = (1..).zip(table).filter(|(_, task)| slot % task.period == 0);
        calls.extend(due.map(|(number, task)| Call::Release(number, task.budget)));
        calls.push(Call::Slot(cores));
    }
    script(cores, table, calls)
}

// While both are open, tasks 1 and 2 owe the same, so the number decides. Task 3 takes
// core 2 in slot 2 and keeps it, so that task 2 takes core 1 in slot 3.
#[test]
fn case_j() {
    check(&released_at_once(2, &CASE_J, 6), CASE_J_PRINTED);
}

// The two take turns: after an odd slot task 2 owes one more, after an even one
// both owe the same. Task 1 has run three slots and task 2 two: both are late.
#[test]
fn case_k() {
    let table = [Task::new(5, 5, 5), Task::new(5, 5, 5)];
    let expected = "DONE\nDONE\n1 0 0 1 1\n2 0 0 1 1\n1 0 0 1 1\n2 0 0 1 1\n1 0 3 1 1\n";
    check(&released_at_once(1, &table, 5), expected);
}

// The bytes of a whole script, so that the writer of scripts is checked as well.
#[test]
fn case_k_as_bytes() {
    let text = b"CORES 1\nPERIOD BUDGET DEADLINE\n5 5 5\n5 5 5\nCALLS\n\
        RELEASE 1 5\nRELEASE 2 5\nSLOT 1\nFINISH 1\nSLOT 1\nOFFER 9 1 9\nCOMMIT\nSLOT 1\n";
    let table = [Task::new(5, 5, 5), Task::new(5, 5, 5)];
    let mut script = released_at_once(1, &table, 3);
    script.calls.insert(3, Call::Finish(1));
    script.calls.insert(5, Call::Offer(Task::new(9, 1, 9)));
    script.calls.insert(6, Call::Commit);
    assert_eq!(script.text(), text);
    check(
        &script,
        "DONE\nDONE\n1 0 0 1 1\nDONE\n2 0 0 1 1\nREFUSED 13\nREFUSED 17\n2 0 0 1 1\n",
    );
}

// Two jobs of one task never fall within T, however early the first one closes.
#[test]
fn the_gap_outlasts_the_job() {
    let text = b"CORES 1\nPERIOD BUDGET DEADLINE\n3 1 2\nCALLS\n\
        RELEASE 1 1\nSLOT 1\nRELEASE 1 1\nSLOT 1\nRELEASE 1 1\nSLOT 1\nRELEASE 1 1\nFINISH 1\n\
        RELEASE 1 1\nFINISH 1\nSLOT 1\nSLOT 1\nRELEASE 1 1\nSLOT 1\nRELEASE 1 1\n";
    let expected =
        b"DONE\n1 1 0 1 1\nREFUSED 9\n0 0 0 0\nREFUSED 9\n0 0 0 0\nDONE\nDONE\nREFUSED 9\n\
        REFUSED 11\n0 0 0 0\n0 0 0 0\nREFUSED 9\n0 0 0 0\nDONE\n";
    assert_eq!(program::replay_output(text), expected);
}

// Urgent jobs go by left, not by number alone. A late job closes.
#[test]
fn urgent_jobs_go_by_left() {
    let table = [Task::new(5, 5, 5), Task::new(3, 3, 3)];
    let mut script = released_at_once(1, &table, 5);
    script.calls.extend([Call::Finish(1), Call::Release(1, 5)]);
    let expected = "DONE\nDONE\n2 0 0 1 1\n2 0 0 1 1\n2 2 0 1 1\n1 0 0 1 1\n1 0 1 1 1\n\
        REFUSED 11\nDONE\n";
    check(&script, expected);
}

// A refused slot between any two slots of case j: the other answers stay.
#[test]
fn a_refused_slot_changes_no_other_answer() {
    let expected = "DONE\nDONE\nDONE\n3 0 0 2 1 2\nREFUSED 14\n5 1 0 2 1 2\nREFUSED 14\n\
        6 2 0 2 1 2\nREFUSED 14\n4 0 0 1 2\nREFUSED 14\n4 0 0 1 2\nREFUSED 14\n4 4 0 1 2\n";
    assert_eq!(expected.replace("REFUSED 14\n", ""), CASE_J_PRINTED);
    for k in [0, 1, 17, 4_294_967_295] {
        let slots = [2, k, 2, k, 2, k, 2, k, 2, k, 2];
        check(&released_then(2, &CASE_J, &slots), expected);
    }
}

// A task without spare, C = D = 2: refused slots take nothing off left, and
// nothing off the gap.
#[test]
fn refused_slots_take_no_time() {
    let text = b"CORES 2\nPERIOD BUDGET DEADLINE\n4 2 2\nCALLS\n\
        RELEASE 1 2\nSLOT 1\nSLOT 1\nSLOT 2\nSLOT 2\n\
        SLOT 1\nSLOT 17\nRELEASE 1 2\nSLOT 2\nSLOT 0\nRELEASE 1 2\nSLOT 2\nRELEASE 1 2\n";
    let expected = b"DONE\nREFUSED 14\nREFUSED 14\n1 0 0 1 1\n1 1 0 1 1\n\
        REFUSED 14\nREFUSED 14\nREFUSED 9\n0 0 0 0\nREFUSED 14\nREFUSED 9\n0 0 0 0\nDONE\n";
    assert_eq!(program::replay_output(text), expected);
}

// m to 16 are accepted, whatever is open.
#[test]
fn the_k_that_are_accepted() {
    let odd = [31, 32, 33, 128 + 16, 256 + 16, 65_536 + 16, (1 << 31) + 16];
    let far = [u32::MAX - 15, u32::MAX - 1, u32::MAX];
    for m in [1, 2, 9, 15, 16] {
        let slots: Vec<u32> = (0..=20).chain(odd).chain(far).collect();
        let script = released_then(m, &[Task::new(99, 99, 99)], &slots);
        let answer = |k: &u32| match (m..=16).contains(k) {
            true => "1 0 0 1 1\n",
            false => "REFUSED 14\n",
        };
        let answers: String = slots.iter().map(answer).collect();
        check(&script, &format!("DONE\n{answers}"));
    }
}

// The cores of the slots below. Up to slot 10 nobody runs in two slots in a row, and
// the runners have cores 1 to k in turn. Slot 11 is the first with a keeper, task 6
// with core 1, last in precedence.
const CORES_IN_TURN: [&str; 16] = [
    "1",
    "1 2",
    "1 2 3",
    "1 2 3 4",
    "1 2 3 4 5",
    "6 1 2 3 4 5",
    "1 2 3 4 5 6 7",
    "1 2 3 4 5 6 7 8",
    "5 6 7 8 9 1 2 3 4",
    "1 2 3 4 5 6 7 8 9 10",
    "7 8 9 10 11 1 2 3 4 5 6",
    "1 5 6 7 8 9 10 11 12 2 3 4",
    "4 9 10 11 12 13 1 5 6 7 8 2 3",
    "4 9 10 11 12 1 5 6 7 8 13 14 2 3",
    "4 9 10 11 12 15 1 5 6 7 8 13 14 2 3",
    "2 3 13 14 16 4 9 10 11 12 15 1 5 6 7 8",
];

// 20 equal tasks on 1 core take turns: each slot runs the k tasks after those of
// the slot before, from task 1 again after task 20. They are never urgent.
#[test]
fn more_open_tasks_than_k() {
    let slots: Vec<u32> = (1..=16).collect();
    let script = released_then(1, &[Task::new(99, 50, 99); 20], &slots);
    // After k slots 1 + 2 + .. + k turns were taken.
    let turns = |k: u32| k * (k + 1) / 2;
    let ran = |k: u32| (turns(k - 1)..turns(k)).map(|turn| 1 << (turn % 20));
    let answer = |(k, cores): (&u32, &str)| format!("{} 0 0 {k} {cores}\n", ran(*k).sum::<u32>());
    let answers: String = slots.iter().zip(CORES_IN_TURN).map(answer).collect();
    assert!(answers.starts_with("1 0 0 1 1\n6 0 0 2 1 2\n56 0 0 3 1 2 3\n960 0 0 4 1 2 3 4\n"));
    check(&script, &("DONE\n".repeat(20) + &answers));
}

// Budgets so far apart that 16 slots leave their order: each slot runs the last k, of
// which the first is new and takes core k.
#[test]
fn more_open_tasks_than_k_and_the_last_owe_most() {
    let slots: Vec<u32> = (1..=16).collect();
    let table: Vec<Task> = (1..=20).map(|i| Task::new(999, 20 * i, 999)).collect();
    let script = released_then(1, &table, &slots);
    let cores = |k: u32| (1..=k).rev().map(|core| format!(" {core}"));
    let ran = |k: u32| ((1 << k) - 1) << (20 - k);
    let answer = |k: &u32| format!("{} 0 0 {k}{}\n", ran(*k), cores(*k).collect::<String>());
    let answers: String = slots.iter().map(answer).collect();
    assert!(answers.starts_with("524288 0 0 1 1\n786432 0 0 2 2 1\n917504 0 0 3 3 2 1\n"));
    check(&script, &("DONE\n".repeat(20) + &answers));
}

#[test]
fn more_open_tasks_than_m_and_fewer_than_k() {
    let table = [Task::new(9, 1, 9), Task::new(9, 2, 8), Task::new(9, 3, 7)];
    let expected = "DONE\nDONE\nDONE\n7 1 0 3 3 2 1\n4 0 0 1 1\n6 6 0 2 2 1\n";
    check(&released_then(1, &table, &[4, 1, 3]), expected);
}

// k is never compared with the number of open tasks, nor with that of all.
#[test]
fn all_16_cores_and_one_open_task_or_none() {
    let text = b"CORES 1\nPERIOD BUDGET DEADLINE\n4 2 4\n4 1 4\nCALLS\n\
        SLOT 16\nRELEASE 2 1\nSLOT 16\nSLOT 16\nRELEASE 1 2\nSLOT 16\nSLOT 1\n";
    let expected = b"0 0 0 0\nDONE\n2 2 0 1 1\n0 0 0 0\nDONE\n1 0 0 1 1\n1 1 0 1 1\n";
    assert_eq!(program::replay_output(text), expected);
}

// Later numbers have earlier deadlines and go first. Task 2 has core 4 until a slot of
// k = 2, and task 1 the first core that is free when it comes.
#[test]
fn each_slot_has_its_own_k() {
    let table = [15, 14, 13, 12, 11].map(|deadline| Task::new(20, 3, deadline));
    let expected = "DONE\nDONE\nDONE\nDONE\nDONE\n\
        28 0 0 3 3 2 1\n24 0 0 2 2 1\n30 24 0 4 4 3 2 1\n7 4 0 3 1 4 3\n3 2 0 2 1 2\n\
        REFUSED 14\n1 1 0 1 1\n";
    check(&released_then(2, &table, &[3, 2, 4, 16, 2, 1, 2]), expected);
}

// Task 1 is urgent in slot 3 and goes before task 3, whose left is smaller. It
// waits in slot 4 and is late in slot 6.
#[test]
fn precedence_on_more_cores_than_m() {
    let table = [
        Task::new(8, 4, 6),
        Task::new(8, 1, 3),
        Task::new(8, 1, 4),
        Task::new(8, 5, 5),
    ];
    let expected = "DONE\nDONE\nDONE\nDONE\n\
        10 2 0 2 2 1\n8 0 0 1 1\n9 0 0 2 2 1\n12 4 0 2 2 1\n9 8 0 2 2 1\n1 0 1 1 2\n";
    check(&released_then(1, &table, &[2, 1, 2, 2, 2, 16]), expected);
}

// Case k: a second core in every slot keeps both in time, one in a single slot
// does not: from slot 2 on they take turns, and each is two slots short.
#[test]
fn case_k_on_more_cores() {
    let table = [Task::new(5, 5, 5), Task::new(5, 5, 5)];
    let both = "3 0 0 2 1 2\n".repeat(4);
    let expected = &format!("DONE\nDONE\n{both}3 3 0 2 1 2\n");
    check(&released_then(1, &table, &[2, 16, 2, 3, 2]), expected);
    let expected = "DONE\nDONE\n3 0 0 2 1 2\n1 0 0 1 1\n2 0 0 1 1\n1 0 0 1 1\n2 0 3 1 1\n";
    check(&released_then(1, &table, &[16, 1, 1, 1, 1]), expected);
}

// The machine keeps m: offers and later slots go by it, not by a slot's k.
#[test]
fn a_slot_leaves_m() {
    let text = b"CORES 1\nPERIOD BUDGET DEADLINE\n5 5 5\nCALLS\n\
        SLOT 16\nOFFER 5 5 5\nSLOT 2\nOFFER 5 5 5\nSLOT 1\nSLOT 0\nOFFER 5 5 5\nSLOT 1\n";
    let expected = b"0 0 0 0\nREFUSED 13\n0 0 0 0\nREFUSED 13\n0 0 0 0\nREFUSED 14\n\
        REFUSED 13\n0 0 0 0\n";
    assert_eq!(program::replay_output(text), expected);
}

// Document 000, section 4.2: under EDZL on two processors {(5,8), (1,2), (3,6),
// (3,8)}, each task as (C, T), misses a deadline at time 24, the end of slot 24.
// Here it does so in every order of the tasks. With ties by number alone it does
// only where (5,8) stands before (3,8).
#[test]
fn document_000_a_deadline_miss_at_time_24() {
    let table = [
        Task::new(8, 5, 8),
        Task::new(2, 1, 2),
        Task::new(6, 3, 6),
        Task::new(8, 3, 8),
    ];
    let orders = orders(&table);
    assert_eq!(orders.len(), 24);
    for order in orders {
        let late = first_late_slot(&released_periodically(2, &order, 24));
        assert_eq!(late, Some(24), "{order:?}");
    }
}

// The same section: {(2,3), (3,5), (1,3), (2,6)} on two processors meets all
// deadlines for a hyper-period. Here too, in every order of the tasks.
#[test]
fn document_000_no_deadline_miss() {
    let table = [
        Task::new(3, 2, 3),
        Task::new(5, 3, 5),
        Task::new(3, 1, 3),
        Task::new(6, 2, 6),
    ];
    for order in orders(&table) {
        let late = first_late_slot(&released_periodically(2, &order, 60));
        assert_eq!(late, None, "{order:?}");
    }
}

// Every order of the tasks.
fn orders(tasks: &[Task]) -> Vec<Vec<Task>> {
    if tasks.is_empty() {
        return vec![Vec::new()];
    }
    let mut found = Vec::new();
    for first in 0..tasks.len() {
        let mut rest = tasks.to_vec();
        let first = rest.remove(first);
        let after = orders(&rest).into_iter();
        found.extend(after.map(|order| [vec![first], order].concat()));
    }
    found
}

// The first slot, from 1, that reports a late job, by both machines.
fn first_late_slot(script: &Script) -> Option<usize> {
    let answers = script.play();
    check(script, &lines(&answers));
    let slots = answers.iter().filter_map(|answer| match answer {
        Answer::Ran(slot) => Some(slot.late),
        _ => None,
    });
    let late = slots.enumerate().find(|(_, late)| *late != 0);
    late.map(|(index, _)| index + 1)
}
