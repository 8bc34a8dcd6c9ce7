//! The check of printed cores on outputs made by hand: it passes what keeps the rules
//! of document 02, change 4, and finds each way to break them.

use edzl_tests::cores::{Assigned, check};
use edzl_tests::script::{Call, Script};
use edzl_tests::sessions;
use edzl_tests::tasks::Task;

use Call::{Commit, Finish, Offer, Release, Slot};

// Tasks on 1 core. What they are plays no part: the check reads no table.
fn script(calls: &[Call]) -> Script {
    sessions::script(1, &[Task::new(9, 9, 9); 3], calls.to_vec())
}

// Slots alone, and what each of them prints.
fn slots(slots: &[(u32, &str)]) -> Result<Assigned, String> {
    let calls: Vec<Call> = slots.iter().map(|(k, _)| Slot(*k)).collect();
    let printed: String = slots.iter().map(|(_, line)| format!("{line}\n")).collect();
    check(&script(&calls), &printed)
}

fn assigned(kept: u64, above_k: u64, back_on_another: u64) -> Result<Assigned, String> {
    Ok(Assigned {
        kept,
        above_k,
        back_on_another,
    })
}

fn broken(place: usize, fault: &str) -> Result<Assigned, String> {
    Err(format!("call {place}: {fault}"))
}

#[test]
fn cores_kept() {
    let twice = [(2, "3 0 0 2 1 2"), (2, "3 0 0 2 1 2")];
    assert_eq!(slots(&twice), assigned(2, 0, 0));
    let more = [(1, "4 0 0 1 1"), (3, "7 0 0 3 2 3 1"), (3, "7 0 0 3 2 3 1")];
    assert_eq!(slots(&more), assigned(4, 0, 0));
    assert_eq!(slots(&[(2, "0 0 0 0")]), assigned(0, 0, 0));
    assert_eq!(slots(&[]), assigned(0, 0, 0));
}

#[test]
fn a_keeper_that_leaves_its_core() {
    let swapped = [(2, "3 0 0 2 1 2"), (2, "3 0 0 2 2 1")];
    assert_eq!(slots(&swapped), broken(2, "task 1 leaves core 1"));
    let moved = [(2, "3 0 0 2 1 2"), (2, "2 0 0 1 1")];
    assert_eq!(slots(&moved), broken(2, "task 2 leaves core 2"));
}

// Releases, finishes, offers, commits and refused calls leave the slot before what it was.
#[test]
fn calls_between_two_slots() {
    let calls = [
        Slot(2),
        Slot(0),
        Finish(1),
        Release(1, 9),
        Offer(Task::new(9, 1, 9)),
        Commit,
        Commit,
        Slot(2),
    ];
    let printed = "3 1 0 2 1 2\nREFUSED 14\nREFUSED 11\nDONE\nDONE\nDONE\nREFUSED 17\n2 0 0 1 2\n";
    assert_eq!(check(&script(&calls), printed), assigned(1, 0, 0));
    let moved = printed.replace("2 0 0 1 2", "2 0 0 1 1");
    let expected = broken(8, "task 2 leaves core 2");
    assert_eq!(check(&script(&calls), &moved), expected);
}

// Core 3 on 2 cores: the first that nobody keeps.
#[test]
fn a_core_above_k() {
    let given_up = [(3, "7 0 0 3 1 2 3"), (2, "5 0 0 2 1 2")];
    assert_eq!(slots(&given_up), assigned(1, 1, 0));
    let kept = [(3, "7 0 0 3 1 2 3"), (2, "5 0 0 2 1 3")];
    assert_eq!(slots(&kept), broken(2, "task 3 has core 3 of 2"));
}

// A slot without the task, also one of nobody, ends its keeping.
#[test]
fn a_task_back_after_a_pause() {
    for pause in ["1 0 0 1 1", "0 0 0 0"] {
        let back = [(2, "3 0 0 2 1 2"), (2, pause), (2, "2 0 0 1 1")];
        let kept = u64::from(pause.starts_with('1'));
        assert_eq!(slots(&back), assigned(kept, 0, 1), "{pause}");
        let stale = [(2, "3 0 0 2 1 2"), (2, pause), (2, "2 0 0 1 2")];
        let expected = broken(3, "cores {2} are taken and not {1}");
        assert_eq!(slots(&stale), expected, "{pause}");
    }
    let same = [(2, "3 0 0 2 1 2"), (2, "2 0 0 1 2"), (2, "3 0 0 2 1 2")];
    assert_eq!(slots(&same), assigned(2, 0, 0));
}

// The cores that are not kept are taken in rising number, none left out.
#[test]
fn cores_that_are_not_the_first() {
    let expected = broken(1, "cores {2} are taken and not {1}");
    assert_eq!(slots(&[(2, "1 0 0 1 2")]), expected);
    let expected = broken(1, "cores {1, 3} are taken and not {1, 2}");
    assert_eq!(slots(&[(3, "3 0 0 2 3 1")]), expected);
    let beside = [(2, "3 0 0 2 1 2"), (3, "6 0 0 2 2 3")];
    let expected = broken(2, "cores {3} are taken and not {1}");
    assert_eq!(slots(&beside), expected);
}

#[test]
fn cores_outside_1_to_k() {
    let expected = broken(1, "task 1 has core 0 of 2");
    assert_eq!(slots(&[(2, "1 0 0 1 0")]), expected);
    let expected = broken(1, "task 2 has core 3 of 2");
    assert_eq!(slots(&[(2, "3 0 0 2 1 3")]), expected);
}

#[test]
fn one_core_twice() {
    assert_eq!(slots(&[(2, "3 0 0 2 1 1")]), broken(1, "core 1 twice"));
    assert_eq!(slots(&[(3, "7 0 0 3 1 2 1")]), broken(1, "core 1 twice"));
}

#[test]
fn not_one_core_for_each_runner() {
    let few = broken(1, "2 runners, 2 tasks, 1 cores");
    assert_eq!(slots(&[(2, "3 0 0 2 1")]), few);
    let none = broken(1, "1 runners, 1 tasks, 0 cores");
    assert_eq!(slots(&[(2, "1 0 0 1")]), none);
    let many = broken(1, "0 runners, 0 tasks, 1 cores");
    assert_eq!(slots(&[(2, "0 0 0 0 1")]), many);
    let other = broken(1, "2 runners, 1 tasks, 2 cores");
    assert_eq!(slots(&[(2, "2 0 0 2 1 2")]), other);
}

#[test]
fn answers_of_another_form() {
    for line in ["DONE", "1 0 0", "1 0 0 1 x", "1 0 0 1  1", "1 0 0 1 1 "] {
        let expected = broken(1, &format!("no answer of a slot: {line}"));
        assert_eq!(slots(&[(2, line)]), expected);
    }
}

// The 32nd task is one as well.
#[test]
fn the_last_task() {
    let last = [(2, "2147483649 0 0 2 1 2"), (2, "2147483648 0 0 1 2")];
    assert_eq!(slots(&last), assigned(1, 0, 0));
    let moved = [(2, "2147483649 0 0 2 1 2"), (2, "2147483648 0 0 1 1")];
    assert_eq!(slots(&moved), broken(2, "task 32 leaves core 2"));
}
