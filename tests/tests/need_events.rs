//! The events of needs that comparisons count (document 02, change 5), each met in a
//! session made for it.

use edzl_tests::need_events::{met, names};
use edzl_tests::script::Call;
use edzl_tests::sessions::script;
use edzl_tests::tasks::Task;

use Call::{Commit, Finish, Offer, Release, Slot};

// All events that are met in these calls on 1 core, each as often as it is given.
fn check_met(table: &[Task], calls: &[Call], events: &[&str]) {
    let mut found = met(&script(1, table, calls.to_vec()));
    let mut events = events.to_vec();
    found.sort_unstable();
    events.sort_unstable();
    assert_eq!(found, events);
    let known: Vec<&str> = names().collect();
    assert!(found.iter().all(|name| known.contains(name)));
}

#[test]
fn accepted_releases() {
    let table = [Task::new(4, 3, 4), Task::new(9, 2, 2), Task::new(9, 5, 6)];
    check_met(&table, &[Release(1, 3)], &["a release with e = C"]);
    let expected = [
        "a release with e below C",
        "a release with e = C − 1 above 1",
    ];
    check_met(&table, &[Release(3, 4)], &expected);
    let expected = [
        "a release with e below C",
        "a release with e = 1 below C",
        "a release that the whole C would make urgent",
    ];
    check_met(&table, &[Release(2, 1)], &expected);
}

// Needs 1, 2 and 1: the second as soon as the gap ends, the third a slot later.
#[test]
fn one_release_after_another() {
    let table = [Task::new(2, 2, 2)];
    let first = ["a release with e below C", "a release with e = 1 below C"];
    let urgent = "a release that the whole C would make urgent";
    let slot = ["a job finished after fewer runs than C"];
    let open = ["an open job that the whole C would make urgent"];
    let second = [
        "a release with e = C",
        "a release with a larger e than the task's last",
    ];
    let soon = ["a release as soon as the gap of a job of e below C ended"];
    let mut calls = vec![Release(1, 1), Slot(1), Slot(1), Release(1, 2)];
    let mut expected = [&first[..], &[urgent], &slot, &open, &second, &soon].concat();
    check_met(&table, &calls, &expected);
    calls.extend([Finish(1), Slot(1), Slot(1), Slot(1), Release(1, 1)]);
    expected.extend(first);
    expected.extend([urgent, "a release with a smaller e than the task's last"]);
    check_met(&table, &calls, &expected);
}

#[test]
fn refused_releases() {
    let table = [Task::new(9, 2, 5)];
    check_met(&table, &[Release(1, 0)], &["15 for e = 0 of a due task"]);
    let expected = ["15 for e = C + 1 of a due task"];
    check_met(&table, &[Release(1, 3)], &expected);
    check_met(
        &table,
        &[Release(1, 4)],
        &["15 for e above C + 1, at most D"],
    );
    let expected = ["15 for e above 1,000,000", "15 for e of 4,294,967,295"];
    check_met(&table, &[Release(1, u32::MAX)], &expected);
    check_met(&table, &[Release(2, 0)], &["8 for e = 0"]);
    check_met(
        &table,
        &[Release(0, 1_000_001)],
        &["8 for e above 1,000,000"],
    );
    let expected = ["8 for e that a task of the table takes"];
    check_met(&table, &[Release(2, 2)], &expected);
}

#[test]
fn refused_releases_of_a_task_with_a_gap() {
    let table = [Task::new(9, 2, 5)];
    let calls = [Release(1, 2), Release(1, 6), Release(1, 1), Release(1, 2)];
    let mut calls = calls.to_vec();
    let mut expected = vec!["a release with e = C", "15 while the job is open"];
    expected.extend(["9 for e below C", "9 for e = C"]);
    check_met(&table, &calls, &expected);
    calls.extend([Finish(1), Release(1, 6)]);
    expected.push("15 while the gap is above 0, task closed");
    check_met(&table, &calls, &expected);
}

// With eight slots between the gap that 15 must not set would still be above 0.
#[test]
fn a_release_after_number_15() {
    let table = [Task::new(9, 2, 5)];
    for (slots, after) in [(0, 1), (8, 1), (9, 0)] {
        let mut calls = vec![Release(1, 0)];
        calls.extend(vec![Slot(1); slots]);
        calls.push(Release(1, 2));
        let after = vec!["a release after one of the due task was refused by 15"; after];
        let others = ["15 for e = 0 of a due task", "a release with e = C"];
        check_met(&table, &calls, &[&others[..], &after].concat());
    }
}

#[test]
fn an_added_task_and_a_finish() {
    let offer = Offer(Task::new(40, 3, 40));
    let calls = [offer, Commit, Release(2, 2), Finish(2)];
    let expected = [
        "a release with e below C",
        "a release with e = C − 1 above 1",
        "a release of an added task with e below C",
        "a finish of a job of e below C",
    ];
    check_met(&[Task::new(40, 3, 40)], &calls, &expected);
}

// Task 1 has 3,1 and task 2 5,3 of C 5: the whole C would make it urgent, and it would
// run. Both are of one core; on two cores nobody has to wait.
#[test]
fn slots_that_the_whole_c_would_change() {
    let table = [Task::new(9, 1, 3), Task::new(9, 5, 5)];
    let released = [
        "a release with e = C",
        "a release with e below C",
        "a release that the whole C would make urgent",
    ];
    let urgent = "an open job that the whole C would make urgent";
    let changed = [
        "a slot that urgency by the whole C would change",
        "a slot that urgency by the table's C would change",
        "a slot that whole budgets would change",
    ];
    let calls = [Release(1, 1), Release(2, 3), Slot(1)];
    let expected = [&released[..], &[urgent], &changed].concat();
    check_met(&table, &calls, &expected);
    let above = "a job of e below C that runs in a slot of k above m";
    let calls = [Release(1, 1), Release(2, 3), Slot(2)];
    check_met(&table, &calls, &[&released[..], &[urgent, above]].concat());
}

// 9,2 and 9,1 of C 4: task 1 runs, and by the whole C task 2 would.
#[test]
fn slots_that_ties_by_the_whole_c_would_change() {
    let table = [Task::new(9, 2, 9), Task::new(9, 4, 9)];
    let calls = [Release(1, 2), Release(2, 1), Slot(1)];
    let expected = [
        "a release with e = C",
        "a release with e below C",
        "a release with e = 1 below C",
        "a slot that ties by the whole C would change",
        "a slot that whole budgets would change",
    ];
    check_met(&table, &calls, &expected);
}

// Two jobs of need 3 and left 5 on 1 core: task 2 is late in the fifth slot.
#[test]
fn a_late_job() {
    let table = [Task::new(5, 5, 5); 2];
    let mut calls = vec![Release(1, 3), Release(2, 3)];
    calls.extend([Slot(1); 5]);
    let found = met(&script(1, &table, calls));
    let times = |event: &str| found.iter().filter(|name| **name == event).count();
    assert_eq!(times("a late job of e below C"), 1);
    assert_eq!(times("a job finished after fewer runs than C"), 1);
}

#[test]
fn nothing_is_met_past_a_bad_line_or_a_refused_start() {
    let calls = vec![Release(1, 1), Call::Bad("RELEASE 1"), Release(1, 0)];
    let script = script(1, &[Task::new(9, 1, 9)], calls);
    assert_eq!(met(&script), ["a release with e = C"]);
    let refused = edzl_tests::script::Script { cores: 0, ..script };
    assert!(met(&refused).is_empty());
}
