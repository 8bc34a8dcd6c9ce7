//! Literal sessions for document 02, change 2: among tasks equal in urgency and
//! left the larger budget still owed goes first, and only then the lower number.
//! In the comments a job is written as its left and its budget.

use edzl_tests::script::{Call, Script};
use edzl_tests::sessions::{check, released_at_once, released_then, script};
use edzl_tests::tasks::Task;
use edzl_tests::ties::{Slots, Ties, count};

use Call::{Commit, Finish, Offer, Release, Slot};

const LONGEST: u32 = 1_000_000;

// Slots in which one task runs, on core 1, from what each of them prints before.
fn alone(slots: &[&str]) -> String {
    slots.iter().map(|slot| format!("{slot} 1 1\n")).collect()
}

// Every task released once on 1 core, then slots in which one task runs.
fn check_on_one_core(table: &[Task], slots: &[&str]) {
    let script = released_at_once(1, table, slots.len());
    check(&script, &("DONE\n".repeat(table.len()) + &alone(slots)));
}

// 4,1 and 4,3: task 2. 3,1 and 3,2: task 2. 2,1 and 2,1: task 1, finished. Task 2
// has 1,1 and is finished too.
#[test]
fn the_longer_job_first() {
    let table = [Task::new(9, 1, 4), Task::new(9, 3, 4)];
    check_on_one_core(&table, &["2 0 0", "2 0 0", "1 1 0", "2 2 0"]);
}

// The same two in the other order: the number decides in slot 3 only.
#[test]
fn the_longer_job_first_with_the_lower_number() {
    let table = [Task::new(9, 3, 4), Task::new(9, 1, 4)];
    check_on_one_core(&table, &["1 0 0", "1 0 0", "1 1 0", "2 2 0"]);
}

// Task 3 keeps task 2 from running. Then 2,2 and 2,3, both urgent: task 2. Then
// 1,2 and 1,2: task 1, and both are late.
#[test]
fn the_longer_of_two_urgent_jobs_first() {
    let table = [Task::new(9, 2, 2), Task::new(9, 3, 3), Task::new(9, 1, 1)];
    let calls = [
        Release(2, 3),
        Release(3, 1),
        Slot(1),
        Release(1, 2),
        Slot(1),
        Slot(1),
    ];
    check(
        &script(1, &table, calls.to_vec()),
        "DONE\nDONE\n4 4 0 1 1\nDONE\n2 0 0 1 1\n1 0 3 1 1\n",
    );
}

// Task 2 is urgent from the start, task 1 from slot 2 on: 3,3 and 3,3, task 1;
// 2,2 and 2,3, task 2; 1,2 and 1,2, task 1. Both are late.
#[test]
fn two_urgent_jobs_take_turns() {
    let table = [Task::new(9, 3, 4), Task::new(9, 4, 4)];
    check_on_one_core(&table, &["2 0 0", "1 0 0", "2 0 0", "1 0 3"]);
}

// Three urgent jobs of left 3, 2, 1 on 2 cores. They owe 3 3 3, then 2 2 3, then
// 1 2 2, and at the end one slot each: all late, where the number alone would
// finish two.
#[test]
fn three_urgent_jobs_on_two_cores() {
    let table = [Task::new(3, 3, 3); 3];
    let expected = "DONE\nDONE\nDONE\n3 0 0 2 1 2\n5 0 0 2 1 2\n6 0 7 2 1 2\n";
    check(&released_at_once(2, &table, 3), expected);
}

// Budgets 2 and 3, then 2 and 2: the number decides, though C is 2 and 3. Then 1
// and 2, 1 and 1, 0 and 1. Never urgent: left is 9 to 5.
#[test]
fn the_budget_owed_and_not_the_tables_c() {
    let table = [Task::new(9, 2, 9), Task::new(9, 3, 9)];
    let slots = ["2 0 0", "1 0 0", "2 0 0", "1 1 0", "2 2 0"];
    check_on_one_core(&table, &slots);
}

// Task 1 has the larger C, 5, and has run three slots when task 2 is released:
// 7,2 and 7,3: task 2. Then 6,2 and 6,2: task 1, and so on in turns.
#[test]
fn the_budget_owed_against_a_larger_c() {
    let table = [Task::new(20, 5, 10), Task::new(20, 3, 7)];
    let mut calls = vec![Release(1, 5), Slot(1), Slot(1), Slot(1), Release(2, 3)];
    calls.extend([Slot(1); 5]);
    let before = alone(&["1 0 0"; 3]);
    let after = alone(&["2 0 0", "1 0 0", "2 0 0", "1 1 0", "2 2 0"]);
    let expected = format!("DONE\n{before}DONE\n{after}");
    check(&script(1, &table, calls), &expected);
}

// The same among urgent jobs, C 6 and 5. 5,5 and 5,5: task 1. 4,4 and 4,5: task 2.
// 3,4 and 3,4: task 1. 2,3 and 2,4: task 2. 1,3 and 1,3: task 1. Both are late.
#[test]
fn the_budget_owed_against_a_larger_c_when_urgent() {
    let table = [Task::new(20, 6, 6), Task::new(20, 5, 5)];
    let mut calls = vec![Release(1, 6), Slot(1), Release(2, 5)];
    calls.extend([Slot(1); 5]);
    let after = alone(&["1 0 0", "2 0 0", "1 0 0", "2 0 0", "1 0 3"]);
    let expected = format!("DONE\n1 0 0 1 1\nDONE\n{after}");
    check(&script(1, &table, calls), &expected);
}

// 9,5 and 8,1: task 2, whose left is smaller, with the smaller budget and the
// higher number.
#[test]
fn left_goes_before_the_budget() {
    let table = [Task::new(20, 5, 9), Task::new(20, 1, 8)];
    let slots = ["2 2 0", "1 0 0", "1 0 0", "1 0 0", "1 0 0", "1 1 0"];
    check_on_one_core(&table, &slots);
}

// Both urgent, 5,5 and 4,4, down to 2,5 and 1,1: task 2 in four slots. Task 1 is late.
#[test]
fn left_goes_before_the_budget_when_urgent() {
    let table = [Task::new(9, 5, 5), Task::new(9, 4, 4)];
    let slots = ["2 0 0", "2 0 0", "2 0 0", "2 2 0", "1 0 1"];
    check_on_one_core(&table, &slots);
}

// 7,2 three times: the lower number, whichever was released first. Who has run
// owes less, so that the three take turns. Never urgent: left 2 in the last slot.
#[test]
fn equal_in_all_three_the_lower_number() {
    let table = [Task::new(9, 2, 7); 3];
    let slots = ["1 0 0", "2 0 0", "4 0 0", "1 1 0", "2 2 0", "4 4 0"];
    check_on_one_core(&table, &slots);
    let mut calls = vec![Release(3, 2), Release(2, 2), Release(1, 2)];
    calls.extend([Slot(1); 6]);
    let expected = "DONE\n".repeat(3) + &alone(&slots);
    check(&script(1, &table, calls), &expected);
}

// 3,1 and 5,5: task 2 is urgent. 2,1 and 4,4: task 2. 1,1 and 3,3, both urgent:
// task 1. Task 2 waited and is late.
#[test]
fn urgency_goes_before_left() {
    let table = [Task::new(9, 1, 3), Task::new(9, 5, 5)];
    let slots = ["2 0 0", "2 0 0", "1 1 0", "2 0 0", "2 0 2"];
    check_on_one_core(&table, &slots);
}

// On 2 cores an urgent task takes one, and the longer of two equals the other:
// 9,9 and 4,1 and 4,3; 8,8 and 3,1 and 3,2; 7,7 and 2,1 and 2,1; 6,6 and 1,1.
#[test]
fn the_longer_job_takes_the_core_beside_an_urgent_one() {
    let table = [Task::new(9, 9, 9), Task::new(9, 1, 4), Task::new(9, 3, 4)];
    let expected = "DONE\nDONE\nDONE\n\
        5 0 0 2 1 2\n5 0 0 2 1 2\n3 2 0 2 1 2\n5 4 0 2 1 2\n1 0 0 1 1\n";
    check(&released_at_once(2, &table, 5), expected);
}

// A task that a commit adds stands last and goes first where it owes more; a finish
// takes its job out of the order. The script as bytes.
#[test]
fn an_added_task_that_owes_more() {
    let text = b"CORES 1\nPERIOD BUDGET DEADLINE\n20 2 10\nCALLS\n\
        OFFER 20 3 10\nCOMMIT\nRELEASE 1 2\nRELEASE 2 3\n\
        SLOT 1\nSLOT 1\nSLOT 1\nFINISH 2\nSLOT 1\n";
    let slots = [Slot(1); 3];
    let mut calls = vec![Offer(Task::new(20, 3, 10)), Commit];
    calls.extend([Release(1, 2), Release(2, 3)]);
    calls.extend(slots);
    calls.extend([Finish(2), Slot(1)]);
    let script = script(1, &[Task::new(20, 2, 10)], calls);
    assert_eq!(script.text(), text);
    let expected = "DONE\nDONE\nDONE\nDONE\n2 0 0 1 1\n1 0 0 1 1\n2 0 0 1 1\nDONE\n1 1 0 1 1\n";
    check(&script, expected);
}

// 32 tasks of one deadline and C 1 to 32 on 16 cores. The upper half runs first;
// then its lowest tasks owe no more than the highest of the lower half, and the
// lower numbers go before them. Never urgent: left is 40 to 35. Tasks 20 to 32 have
// cores 13 to 1 in every slot; those before them are given here.
#[test]
fn thirty_two_tasks_on_16_cores() {
    let table: Vec<Task> = (1..=32).map(|i| Task::new(40, i, 40)).collect();
    let ran: [(u32, &str); 6] = [
        (0xffff_0000, "16 15 14"), // 17 to 32
        (0xfffe_8000, "16 15 14"), // 16, 18 to 32: tasks 16 and 17 owe 16
        (0xffff_0000, "16 15 14"), // 17 to 32: tasks 15 and 16 owe 15
        (0xfffc_c000, "15 16 14"), // 15, 16, 19 to 32: tasks 15 to 18 owe 15
        (0xffff_0000, "15 16 14"), // 17 to 32: tasks 14 to 16 owe 14
        (0xfff8_e000, "14 15 16"), // 14 to 16, 20 to 32: tasks 14 to 19 owe 14
    ];
    let rest = "13 12 11 10 9 8 7 6 5 4 3 2 1";
    let answer = |(ran, cores): &(u32, &str)| format!("{ran} 0 0 16 {cores} {rest}\n");
    let answers: String = ran.iter().map(answer).collect();
    let expected = "DONE\n".repeat(32) + &answers;
    check(&released_at_once(16, &table, 6), &expected);
}

// Left 1,000,000 and budgets 1, 999,998 and 999,999, none urgent: task 3. Then
// 999,998 twice: task 2. Then task 3 is urgent, from slot 4 on task 2 as well.
#[test]
fn the_largest_budgets() {
    let table = [1, 999_998, 999_999].map(|budget| Task::new(LONGEST, budget, LONGEST));
    let slots = ["4 0 0", "2 0 0", "4 0 0", "2 0 0", "4 0 0", "2 0 0"];
    check_on_one_core(&table, &slots);
}

// A budget of 1,000,000 besides, urgent from the start. Task 3 is urgent from slot
// 2 on, task 2 from slot 3 on. The three owe, less 999,990: 8 9 10, 8 9 9, 8 8 9,
// 8 8 8, 7 8 8, 7 7 8, 7 7 7.
#[test]
fn the_largest_budget_of_all() {
    let budgets = [1, 999_998, 999_999, LONGEST];
    let table = budgets.map(|budget| Task::new(LONGEST, budget, LONGEST));
    let slots = [
        "8 0 0", "4 0 0", "8 0 0", "2 0 0", "4 0 0", "8 0 0", "2 0 0",
    ];
    check_on_one_core(&table, &slots);
}

// Task 1 owes all but one slot of its left, 999,999 or 1,000,000; task 2 has one
// slot of left fewer and owes 1. Neither is urgent; task 1 is so from slot 2 on.
#[test]
fn one_slot_of_left_against_the_largest_budget() {
    for deadline in [999_999, LONGEST] {
        let table = [
            Task::new(LONGEST, deadline - 1, deadline),
            Task::new(LONGEST, 1, deadline - 1),
        ];
        check_on_one_core(&table, &["2 2 0", "1 0 0", "1 0 0"]);
    }
}

// The same among urgent jobs: task 1 owes 1,000,000 and waits.
#[test]
fn one_slot_of_left_against_the_largest_budget_when_urgent() {
    let table = [
        Task::new(LONGEST, LONGEST, LONGEST),
        Task::new(LONGEST, 999_999, 999_999),
    ];
    check_on_one_core(&table, &["2 0 0"; 4]);
}

// A budget that loses its upper bits would be 1, less than 2.
#[test]
fn budgets_that_a_cut_would_make_small() {
    for cut in [1 << 8, 1 << 16, 1 << 19] {
        let table = [2, cut + 1].map(|budget| Task::new(LONGEST, budget, LONGEST));
        check_on_one_core(&table, &["2 0 0"; 3]);
    }
}

// A left that loses its upper bits would be 1, less than 2.
#[test]
fn lefts_that_a_cut_would_make_small() {
    for cut in [1 << 8, 1 << 12, 1 << 16, 1 << 19] {
        let table = [cut + 1, 2].map(|deadline| Task::new(LONGEST, 1, deadline));
        check_on_one_core(&table, &["2 2 0", "1 1 0"]);
    }
}

// The counts of slots that ties by number, and ties by the table's C, would change.
fn check_count(script: &Script, by_number: Slots, by_table: Slots) {
    let expected = Ties {
        by_number,
        by_table,
    };
    assert_eq!(count(script), expected);
}

const fn slots(urgent: u64, not_urgent: u64) -> Slots {
    Slots { urgent, not_urgent }
}

// The number alone would change slots 1 and 2, the table's C slot 3.
#[test]
fn slots_that_the_budget_decides_among_tasks_not_urgent() {
    let table = [Task::new(9, 1, 4), Task::new(9, 3, 4)];
    let script = released_at_once(1, &table, 4);
    check_count(&script, slots(0, 2), slots(0, 1));
    // A refused slot is none.
    let script = released_then(1, &table, &[0, 1, 17, 1, 0, 1, 1]);
    check_count(&script, slots(0, 2), slots(0, 1));
    // Nor is anything after a line that is no call.
    let mut script = released_at_once(1, &table, 4);
    script.calls.insert(3, Call::Bad("STOP"));
    check_count(&script, slots(0, 1), slots(0, 0));
    // Beside an urgent task.
    let table = [Task::new(9, 9, 9), Task::new(9, 1, 4), Task::new(9, 3, 4)];
    check_count(&released_at_once(2, &table, 4), slots(0, 2), slots(0, 1));
}

// Case k: slots 2 and 4. Three jobs on 2 cores: slots 2 and 3.
#[test]
fn slots_that_the_budget_decides_among_urgent_tasks() {
    let script = released_at_once(1, &[Task::new(5, 5, 5); 2], 5);
    check_count(&script, slots(2, 0), slots(2, 0));
    let script = released_at_once(2, &[Task::new(3, 3, 3); 3], 3);
    check_count(&script, slots(2, 0), slots(2, 0));
}

// Case j, as many cores as tasks, and a table that no start takes.
#[test]
fn sessions_in_which_the_budget_decides_nothing() {
    let table = [Task::new(6, 2, 3), Task::new(6, 2, 3), Task::new(6, 5, 6)];
    check_count(&released_at_once(2, &table, 6), slots(0, 0), slots(0, 0));
    let table = [Task::new(5, 5, 5), Task::new(5, 1, 5)];
    check_count(&released_at_once(2, &table, 5), slots(0, 0), slots(0, 0));
    check_count(&released_at_once(0, &table, 5), slots(0, 0), slots(0, 0));
}
