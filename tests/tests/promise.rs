//! The check of demand 3 on outputs made by hand: it passes what keeps the
//! demand and finds each way to break it.

use edzl_tests::promise::{Kept, applies, check};
use edzl_tests::script::{Call, Script};
use edzl_tests::tasks::Task;
use edzl_tests::texts::{ORDERS, write};

use Call::{Commit, Finish, Offer, Release, Slot};

// A slot on m cores, and those on one core fewer than m and one more than 16.
const SLOT: Call = Slot(2);
const BELOW: Call = Slot(1);
const ABOVE: Call = Slot(17);

// Tasks of T 6, C 2, D 4 and T 6, C 1, D 3, admitted on 2 cores.
fn script(calls: &[Call]) -> Script {
    let script = Script {
        cores: 2,
        table: write(&[Task::new(6, 2, 4), Task::new(6, 1, 3)], ORDERS[0]),
        calls: calls.to_vec(),
    };
    assert!(applies(&script));
    script
}

fn kept(by_running: u64, by_a_finish: u64, undecided: u64) -> Result<Kept, String> {
    Ok(Kept {
        by_running,
        by_a_finish,
        undecided,
        ..Kept::default()
    })
}

fn broken(place: usize, fault: &str) -> Result<Kept, String> {
    Err(format!("call {place}: {fault}"))
}

// One task of T 7, C 3, D 5 on 1 core, admitted.
fn of_one_task(calls: &[Call]) -> Script {
    let script = Script {
        cores: 1,
        table: write(&[Task::new(7, 3, 5)], ORDERS[0]),
        calls: calls.to_vec(),
    };
    assert!(applies(&script));
    script
}

// A release with this need and five slots, which print so many runs, each with the tasks
// that finish in it, and then nothing.
fn after_a_release(need: u32, finished: &[u32]) -> Result<Kept, String> {
    let mut calls = vec![Release(1, need)];
    calls.extend([Slot(1); 5]);
    let runs = finished
        .iter()
        .map(|finished| format!("1 {finished} 0 1 1\n"));
    let idle = "0 0 0 0\n".repeat(5 - finished.len());
    let printed = format!("DONE\n{}{idle}", runs.collect::<String>());
    check(&of_one_task(&calls), &printed)
}

// One job that ran fewer slots than C.
fn kept_by_fewer_runs() -> Result<Kept, String> {
    Ok(Kept {
        by_running: 1,
        by_fewer_runs_than_c: 1,
        ..Kept::default()
    })
}

// The whole C is 3: two runs and a finish close a job of need 2, one run one of need 1.
#[test]
fn jobs_that_ran_their_need() {
    assert_eq!(after_a_release(3, &[0, 0, 1]), kept(1, 0, 0));
    assert_eq!(after_a_release(2, &[0, 1]), kept_by_fewer_runs());
    assert_eq!(after_a_release(1, &[1]), kept_by_fewer_runs());
    // What is printed of the task afterwards plays no part.
    assert_eq!(after_a_release(2, &[0, 1, 0, 1]), kept_by_fewer_runs());
}

#[test]
fn jobs_that_ran_fewer_slots_than_their_need() {
    let expected = broken(6, "a job of task 1 is not closed");
    assert_eq!(after_a_release(2, &[1]), expected);
    assert_eq!(after_a_release(3, &[1]), expected);
    assert_eq!(after_a_release(3, &[0, 1]), expected);
    assert_eq!(after_a_release(1, &[]), expected);
}

// The e-th run must say that the task finished: a later one, the C-th among them, or an
// earlier one does not count.
#[test]
fn jobs_whose_last_run_does_not_finish() {
    let expected = broken(6, "a job of task 1 is not closed");
    assert_eq!(after_a_release(2, &[0, 0]), expected);
    assert_eq!(after_a_release(2, &[1, 0]), expected);
    assert_eq!(after_a_release(2, &[0, 0, 1]), expected);
    assert_eq!(after_a_release(1, &[0, 0, 1]), expected);
    assert_eq!(after_a_release(1, &[0, 1, 1]), expected);
    assert_eq!(after_a_release(3, &[0, 0, 0, 1]), expected);
}

// The fifth slot is the D-th. One job has its need by then, the other a slot later.
#[test]
fn a_need_run_by_the_deadline() {
    let mut calls = vec![Release(1, 2)];
    calls.extend([Slot(1); 6]);
    let in_time = "DONE\n0 0 0 0\n0 0 0 0\n0 0 0 0\n1 0 0 1 1\n1 1 0 1 1\n0 0 0 0\n";
    assert_eq!(check(&of_one_task(&calls), in_time), kept_by_fewer_runs());
    let too_late = "DONE\n0 0 0 0\n0 0 0 0\n0 0 0 0\n0 0 0 0\n1 0 0 1 1\n1 1 0 1 1\n";
    let expected = broken(6, "a job of task 1 is not closed");
    assert_eq!(check(&of_one_task(&calls), too_late), expected);
}

// A refused release starts no job, whatever it names, and changes no need.
#[test]
fn refused_releases_start_no_job() {
    let mut calls = vec![Release(1, 0), Release(1, 4), Release(2, 0)];
    calls.extend([Slot(1); 5]);
    let idle = "0 0 0 0\n".repeat(5);
    let printed = format!("REFUSED 15\nREFUSED 15\nREFUSED 8\n{idle}");
    assert_eq!(check(&of_one_task(&calls), &printed), kept(0, 0, 0));
    let mut calls = vec![Release(1, 2), Release(1, 3), Release(1, 1), Release(1, 0)];
    calls.extend([Slot(1); 5]);
    let refused = "DONE\nREFUSED 9\nREFUSED 9\nREFUSED 15\n";
    let printed = format!("{refused}1 0 0 1 1\n1 1 0 1 1\n0 0 0 0\n0 0 0 0\n0 0 0 0\n");
    assert_eq!(check(&of_one_task(&calls), &printed), kept_by_fewer_runs());
    let one = format!("{refused}1 1 0 1 1\n0 0 0 0\n0 0 0 0\n0 0 0 0\n0 0 0 0\n");
    let expected = broken(9, "a job of task 1 is not closed");
    assert_eq!(check(&of_one_task(&calls), &one), expected);
}

// Needs 3 and then 1: two runs and a finish would close neither.
#[test]
fn each_job_has_its_own_need() {
    let mut calls = vec![Release(1, 3)];
    calls.extend([Slot(1); 7]);
    calls.extend([Release(1, 1), Slot(1), Slot(1)]);
    let idle = "0 0 0 0\n".repeat(4);
    let printed =
        format!("DONE\n1 0 0 1 1\n1 0 0 1 1\n1 1 0 1 1\n{idle}DONE\n1 1 0 1 1\n0 0 0 0\n");
    let expected = Kept {
        by_running: 2,
        by_fewer_runs_than_c: 1,
        ..Kept::default()
    };
    assert_eq!(check(&of_one_task(&calls), &printed), Ok(expected));
    let longer = printed.replace("DONE\n1 1 0 1 1\n0 0 0 0\n", "DONE\n1 0 0 1 1\n1 1 0 1 1\n");
    let expected = Kept {
        by_running: 1,
        undecided: 1,
        ..Kept::default()
    };
    assert_eq!(check(&of_one_task(&calls), &longer), Ok(expected));
    calls.extend([Slot(1); 3]);
    let expected = broken(14, "a job of task 1 is not closed");
    let longer = format!("{longer}0 0 0 0\n0 0 0 0\n0 0 0 0\n");
    assert_eq!(check(&of_one_task(&calls), &longer), expected);
}

// Only a finish closes a job of need 0: no run is its last.
#[test]
fn an_accepted_need_of_0() {
    let expected = broken(6, "a job of task 1 is not closed");
    assert_eq!(after_a_release(0, &[]), expected);
    assert_eq!(after_a_release(0, &[1]), expected);
    assert_eq!(after_a_release(0, &[0, 0, 1]), expected);
    let calls = [Release(1, 0), Finish(1), Slot(1)];
    let printed = "DONE\nDONE\n0 0 0 0\n";
    assert_eq!(check(&of_one_task(&calls), printed), kept(0, 1, 0));
}

#[test]
fn a_finish_before_all_of_the_need() {
    let mut calls = vec![Release(1, 2), Slot(1), Finish(1)];
    calls.extend([Slot(1); 4]);
    let idle = "0 0 0 0\n".repeat(4);
    let printed = format!("DONE\n1 0 0 1 1\nDONE\n{idle}");
    assert_eq!(check(&of_one_task(&calls), &printed), kept(0, 1, 0));
    let refused = printed.replacen("1 1\nDONE", "1 1\nREFUSED 11", 1);
    let expected = broken(7, "a job of task 1 is not closed");
    assert_eq!(check(&of_one_task(&calls), &refused), expected);
}

// D and C are the added task's, e is the release's.
#[test]
fn the_need_of_an_added_task() {
    let offer = Offer(Task::new(7, 2, 3));
    let calls = [offer, Commit, Release(3, 1), SLOT, SLOT, SLOT];
    let printed = "DONE\nDONE\nDONE\n0 0 0 0\n0 0 0 0\n4 4 0 1 1\n";
    let expected = Kept {
        by_running: 1,
        by_fewer_runs_than_c: 1,
        of_added_tasks: 1,
        ..Kept::default()
    };
    assert_eq!(check(&script(&calls), printed), Ok(expected));
    let open = printed.replace("4 4 0 1 1", "4 0 0 1 1");
    let expected = broken(6, "a job of task 3 is not closed");
    assert_eq!(check(&script(&calls), &open), expected);
}

#[test]
fn jobs_closed_in_time() {
    let once = script(&[Release(1, 2), SLOT, SLOT, SLOT, SLOT]);
    let at_once = "DONE\n1 0 0 1 1\n1 1 0 1 1\n0 0 0 0\n0 0 0 0\n";
    let at_last = "DONE\n0 0 0 0\n0 0 0 0\n1 0 0 1 1\n1 1 0 1 1\n";
    assert_eq!(check(&once, at_once), kept(1, 0, 0));
    assert_eq!(check(&once, at_last), kept(1, 0, 0));
}

#[test]
fn jobs_closed_by_a_finish() {
    let calls = [
        Release(1, 2),
        Release(2, 1),
        SLOT,
        Finish(1),
        SLOT,
        SLOT,
        SLOT,
    ];
    let printed = "DONE\nDONE\n1 0 0 1 1\nDONE\n2 2 0 1 1\n0 0 0 0\n0 0 0 0\n";
    assert_eq!(check(&script(&calls), printed), kept(1, 1, 0));
    // A refused finish closes nothing.
    let refused = printed.replacen("1 1\nDONE", "1 1\nREFUSED 11", 1);
    let expected = broken(7, "a job of task 1 is not closed");
    assert_eq!(check(&script(&calls), &refused), expected);
}

#[test]
fn too_few_slots_decide_nothing() {
    let calls = [Release(1, 2), SLOT, SLOT, SLOT];
    let printed = "DONE\n0 0 0 0\n0 0 0 0\n0 0 0 0\n";
    assert_eq!(check(&script(&calls), printed), kept(0, 0, 1));
    assert_eq!(check(&script(&[]), ""), kept(0, 0, 0));
}

#[test]
fn a_late_job() {
    let calls = [Release(2, 1), SLOT, SLOT, SLOT];
    let printed = "DONE\n0 0 0 0\n0 0 0 0\n0 0 2 0\n";
    assert_eq!(check(&script(&calls), printed), broken(4, "late jobs, 2"));
}

#[test]
fn a_machine_that_runs_nobody() {
    let calls = [Release(2, 1), SLOT, SLOT, SLOT];
    let printed = "DONE\n0 0 0 0\n0 0 0 0\n0 0 0 0\n";
    let expected = broken(4, "a job of task 2 is not closed");
    assert_eq!(check(&script(&calls), printed), expected);
}

#[test]
fn a_job_finished_before_its_budget() {
    let calls = [Release(1, 2), SLOT, SLOT, SLOT, SLOT];
    let printed = "DONE\n1 1 0 1 1\n0 0 0 0\n0 0 0 0\n0 0 0 0\n";
    let expected = broken(5, "a job of task 1 is not closed");
    assert_eq!(check(&script(&calls), printed), expected);
}

#[test]
fn a_job_that_runs_and_does_not_finish() {
    let calls = [Release(1, 2), SLOT, SLOT, SLOT, SLOT];
    let printed = "DONE\n1 0 0 1 1\n1 0 0 1 1\n1 1 0 1 1\n0 0 0 0\n";
    let expected = broken(5, "a job of task 1 is not closed");
    assert_eq!(check(&script(&calls), printed), expected);
}

// A finish or a run before the release plays no part.
#[test]
fn only_calls_after_the_release_count() {
    let calls = [SLOT, Finish(2), Release(2, 1), SLOT, SLOT, SLOT];
    let printed = "2 2 0 1 1\nDONE\nDONE\n0 0 0 0\n0 0 0 0\n0 0 0 0\n";
    let expected = broken(6, "a job of task 2 is not closed");
    assert_eq!(check(&script(&calls), printed), expected);
}

// One job of a task that a commit added, closed by running.
fn kept_of_an_added_task() -> Result<Kept, String> {
    Ok(Kept {
        by_running: 1,
        of_added_tasks: 1,
        ..Kept::default()
    })
}

// An added task's numbers come from the line of its offer; a refused offer gives none.
#[test]
fn added_tasks() {
    let calls = [
        Offer(Task::new(7, 1, 2)),
        Offer(Task::new(9, 9, 9)),
        Commit,
        Release(3, 1),
        SLOT,
        SLOT,
    ];
    let printed = "DONE\nREFUSED 13\nDONE\nDONE\n0 0 0 0\n4 4 0 1 1\n";
    assert_eq!(check(&script(&calls), printed), kept_of_an_added_task());
    let idle = printed.replace("4 4 0 1 1", "0 0 0 0");
    let expected = broken(6, "a job of task 3 is not closed");
    assert_eq!(check(&script(&calls), &idle), expected);
    let refused = "DONE\nREFUSED 13\nREFUSED 17\nDONE\n0 0 0 0\n4 4 0 1 1\n";
    let expected = broken(3, "a refused commit of 7 1 2");
    assert_eq!(check(&script(&calls), refused), expected);
    let without = "REFUSED 13\nREFUSED 13\nREFUSED 17\nDONE\n0 0 0 0\n4 4 0 1 1\n";
    let expected = broken(4, "a release of no task, 3");
    assert_eq!(check(&script(&calls), without), expected);
}

// Of two accepted offers the last: D is 2 and not 3, so that the job closes too late.
#[test]
fn a_commit_adds_the_task_of_the_last_offer() {
    let (first, last) = (Task::new(7, 1, 3), Task::new(7, 1, 2));
    let printed = "DONE\nDONE\nDONE\nDONE\n0 0 0 0\n0 0 0 0\n4 4 0 1 1\n";
    let calls = |one, other| {
        let offers = [Offer(one), Offer(other), Commit, Release(3, 1)];
        [&offers[..], &[SLOT; 3]].concat()
    };
    let in_time = check(&script(&calls(last, first)), printed);
    assert_eq!(in_time, kept_of_an_added_task());
    let expected = broken(6, "a job of task 3 is not closed");
    assert_eq!(check(&script(&calls(first, last)), printed), expected);
    // A refused offer after it displaces nothing.
    let refused = printed.replacen("DONE\nDONE", "DONE\nREFUSED 13", 1);
    assert_eq!(check(&script(&calls(last, first)), &refused), expected);
}

// A commit has an offer since the commit before, or is refused.
#[test]
fn commits_of_no_offer() {
    let offer = Offer(Task::new(7, 1, 2));
    let expected = broken(1, "a commit of no offer");
    assert_eq!(check(&script(&[Commit]), "DONE\n"), expected);
    assert_eq!(check(&script(&[Commit]), "REFUSED 17\n"), kept(0, 0, 0));
    let calls = [offer, Commit, Commit];
    let expected = broken(3, "a commit of no offer");
    assert_eq!(check(&script(&calls), "DONE\nDONE\nDONE\n"), expected);
    let printed = "DONE\nDONE\nREFUSED 17\n";
    assert_eq!(check(&script(&calls), printed), kept(0, 0, 0));
    let printed = "REFUSED 13\nDONE\nREFUSED 17\n";
    let expected = broken(2, "a commit of no offer");
    assert_eq!(check(&script(&calls), printed), expected);
}

// A held task is not in the table yet, and calls in between keep it.
#[test]
fn calls_between_an_offer_and_its_commit() {
    let calls = [
        Release(1, 2),
        Offer(Task::new(7, 1, 2)),
        SLOT,
        Release(3, 1),
        BELOW,
        Finish(3),
        Commit,
        SLOT,
        Release(3, 1),
        SLOT,
    ];
    let printed = "DONE\nDONE\n1 0 0 1 1\nREFUSED 8\nREFUSED 14\nREFUSED 8\nDONE\n\
        1 1 0 1 1\nDONE\n4 4 0 1 1\n";
    let expected = Kept {
        by_running: 2,
        past_refused_slots: 1,
        of_added_tasks: 1,
        past_offers: 1,
        past_commits: 1,
        ..Kept::default()
    };
    assert_eq!(check(&script(&calls), printed), Ok(expected));
    let accepted = printed.replacen("REFUSED 8", "DONE", 1);
    let expected = broken(4, "a release of no task, 3");
    assert_eq!(check(&script(&calls), &accepted), expected);
}

// What a check would read that took refused slots for slots in which nobody ran.
fn counted(printed: &str) -> String {
    printed.replace("REFUSED 14", "0 0 0 0")
}

// The job is closed by its fourth accepted slot, the sixth with the refused ones.
#[test]
fn refused_slots_are_no_slots_in_d() {
    let calls = [Release(1, 2), SLOT, BELOW, SLOT, ABOVE, SLOT, SLOT];
    let printed = "DONE\n0 0 0 0\nREFUSED 14\n0 0 0 0\nREFUSED 14\n1 0 0 1 1\n1 1 0 1 1\n";
    let expected = Kept {
        by_running: 1,
        past_refused_slots: 1,
        too_late_if_counted: 1,
        ..Kept::default()
    };
    assert_eq!(check(&script(&calls), printed), Ok(expected));
    let expected = broken(5, "a job of task 1 is not closed");
    assert_eq!(check(&script(&calls), &counted(printed)), expected);
}

// Three accepted slots of four decide nothing, however many are refused.
#[test]
fn refused_slots_decide_nothing() {
    let calls = [Release(1, 2), SLOT, SLOT, SLOT, BELOW, ABOVE];
    let printed = "DONE\n0 0 0 0\n0 0 0 0\n0 0 0 0\nREFUSED 14\nREFUSED 14\n";
    assert_eq!(check(&script(&calls), printed), kept(0, 0, 1));
    let expected = broken(5, "a job of task 1 is not closed");
    assert_eq!(check(&script(&calls), &counted(printed)), expected);
}

// The fourth accepted slot decides, wherever refused ones stand.
#[test]
fn a_job_not_closed_past_refused_slots() {
    let calls = [Release(1, 2), BELOW, SLOT, SLOT, ABOVE, SLOT, SLOT];
    let printed = "DONE\nREFUSED 14\n1 0 0 1 1\n0 0 0 0\nREFUSED 14\n0 0 0 0\n0 0 0 0\n";
    let expected = broken(7, "a job of task 1 is not closed");
    assert_eq!(check(&script(&calls), printed), expected);
}

// Only those between a job's release and its closing are noted of it.
#[test]
fn refused_slots_before_and_after_a_job() {
    let calls = [ABOVE, Release(2, 1), SLOT, BELOW, Release(1, 2), SLOT, SLOT];
    let printed = "REFUSED 14\nDONE\n2 2 0 1 1\nREFUSED 14\nDONE\n1 0 0 1 1\n1 1 0 1 1\n";
    assert_eq!(check(&script(&calls), printed), kept(2, 0, 0));
    let calls = [Release(1, 2), SLOT, BELOW, Finish(1)];
    let expected = Kept {
        by_a_finish: 1,
        past_refused_slots: 1,
        ..Kept::default()
    };
    let printed = "DONE\n1 0 0 1 1\nREFUSED 14\nDONE\n";
    assert_eq!(check(&script(&calls), printed), Ok(expected));
}

// A slot counts whatever k it names.
#[test]
fn slots_of_more_cores() {
    let calls = [Release(1, 2), Slot(16), Slot(3), SLOT, Slot(16)];
    let printed = "DONE\n0 0 0 0\n0 0 0 0\n1 0 0 1 1\n1 1 0 1 1\n";
    assert_eq!(check(&script(&calls), printed), kept(1, 0, 0));
    let idle = printed.replacen("1 1 0 1 1", "0 0 0 0", 1);
    let expected = broken(5, "a job of task 1 is not closed");
    assert_eq!(check(&script(&calls), &idle), expected);
}

// The demand does not read the cores, whatever they are.
#[test]
fn cores_play_no_part() {
    let calls = [Release(1, 2), SLOT, SLOT, SLOT, SLOT];
    for core in ["", " 1", " 2", " 0", " 17", " 1 1"] {
        let printed = format!("DONE\n1 0 0 1 1\n1 1 0 1{core}\n0 0 0 0\n0 0 0 0\n");
        assert_eq!(check(&script(&calls), &printed), kept(1, 0, 0), "{core}");
    }
    let expected = broken(3, "no answer of a slot: 1 1 0 1 x");
    let printed = "DONE\n1 0 0 1 1\n1 1 0 1 x\n";
    assert_eq!(check(&script(&calls), printed), expected);
}

#[test]
fn answers_of_another_form() {
    let calls = [Release(1, 2), SLOT];
    assert_eq!(check(&script(&calls), "DONE\n"), broken(2, "no answer"));
    let expected = broken(2, "no answer of a slot: DONE");
    assert_eq!(check(&script(&calls), "DONE\nDONE\n"), expected);
    let expected = broken(1, "no answer to such a call: 1 0 0 1 1");
    assert_eq!(check(&script(&calls), "1 0 0 1 1\n1 0 0 1 1\n"), expected);
}

#[test]
fn refused_tables_promise_nothing() {
    let mut refused = script(&[]);
    refused.table = write(&[Task::new(5, 5, 5); 2], ORDERS[0]);
    refused.cores = 1;
    assert!(!applies(&refused));
    refused.cores = 0;
    assert!(!applies(&refused));
}
