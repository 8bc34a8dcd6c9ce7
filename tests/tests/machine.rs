//! The simulated machine by itself, on machines made by hand: number 0, which no
//! list of calls from a start can meet (document 01, "Why a call is not carried
//! out", with changes 3, 4 and 10 of document 02), refusals that leave the machine as it
//! was, releases of every need, offers and commits, and precedence at the limits of left
//! and budget.

use std::collections::BTreeMap;

use edzl_tests::machine::{Job, Machine};
use edzl_tests::tasks::{Refusal, Task};

const CLOSED: Job = job(false, 0, 0, 0);
const OPEN: Job = job(true, 5, 2, 9);

const fn job(open: bool, left: u32, budget: u32, gap: u32) -> Job {
    Job {
        open,
        left,
        budget,
        gap,
        core: 0,
    }
}

const fn on_core(job: Job, core: u32) -> Job {
    Job { core, ..job }
}

// One task of T 9, C 2, D 5 and its job.
fn machine(job: Job) -> Machine {
    Machine {
        table: vec![Task::new(9, 2, 5)],
        cores: 1,
        jobs: vec![job],
        offered: None,
    }
}

// The refusal numbers of release, finish, slot, offer and commit, all on the same machine.
fn refusals(machine: &Machine) -> [Option<u32>; 5] {
    let number = |refusal: Refusal| {
        assert_eq!(refusal.place, 0);
        refusal.number
    };
    [
        machine.clone().release(2, 0).err().map(number),
        machine.clone().finish(2).err().map(number),
        machine.clone().slot(0).err().map(number),
        machine.clone().offer(Task::new(9, 0, 5)).err().map(number),
        machine.clone().commit().err().map(number),
    ]
}

#[test]
fn number_0_comes_before_all_others() {
    let unsound = [
        job(false, 0, 0, 10),
        job(false, 1, 0, 0),
        job(false, 0, 1, 0),
        job(true, 0, 2, 9),
        job(true, 6, 2, 9),
        job(true, 5, 0, 9),
        job(true, 5, 3, 9),
        job(true, 5, 2, 10),
        job(true, 5, 2, 4),
        job(true, 5, 2, 0),
        job(true, 3, 1, 2),
        job(true, 1, 1, 0),
        on_core(CLOSED, 17),
        on_core(OPEN, 17),
        on_core(OPEN, 32),
        on_core(OPEN, 256 + 1),
        on_core(CLOSED, u32::MAX),
    ];
    for job in unsound {
        assert_eq!(refusals(&machine(job)), [Some(0); 5], "{job:?}");
    }
}

#[test]
fn number_0_for_what_no_start_takes() {
    let mut machines = vec![machine(CLOSED); 5];
    machines[0].cores = 0;
    machines[1].cores = 17;
    machines[2].table[0].budget = 6;
    machines[3].table.clear();
    machines[3].jobs.clear();
    machines[4].table = vec![Task::new(9, 2, 5); 33];
    machines[4].jobs = vec![CLOSED; 33];
    for machine in machines {
        assert_eq!(refusals(&machine), [Some(0); 5], "{machine:?}");
    }
}

#[test]
fn sound_machines_at_the_limits() {
    let sound = [
        CLOSED,
        job(false, 0, 0, 1),
        job(false, 0, 0, 9),
        OPEN,
        job(true, 1, 1, 1),
        job(true, 1, 2, 1),
        job(true, 1, 2, 9),
        job(true, 3, 1, 3),
        job(true, 3, 1, 4),
        job(true, 5, 2, 5),
        on_core(CLOSED, 1),
        on_core(CLOSED, 16),
        on_core(OPEN, 1),
        on_core(OPEN, 16),
    ];
    for job in sound {
        let expected = [Some(8), Some(8), Some(14), Some(5), Some(17)];
        assert_eq!(refusals(&machine(job)), expected, "{job:?}");
        assert!(machine(job).slot(1).is_ok(), "{job:?}");
    }
}

// Number 14: k below m or above 16, whether or not a job is open.
#[test]
fn number_14_leaves_the_machine() {
    let fresh = Machine::start(&[Task::new(9, 2, 5)], 3).expect("a start");
    let mut released = fresh.clone();
    released.release(1, 2).expect("a release");
    for before in [fresh, released] {
        for cores in [0, 1, 2, 17, 18, 256 + 3, 65_536 + 3, u32::MAX] {
            let mut machine = before.clone();
            assert_eq!(machine.slot(cores), Err(Refusal::whole(14)), "k = {cores}");
            assert_eq!(machine, before, "k = {cores}");
        }
        for cores in 3..=16 {
            assert!(before.clone().slot(cores).is_ok(), "k = {cores}");
        }
    }
}

// More cores than open tasks run them all, whatever m is.
#[test]
fn runners_of_a_slot() {
    let mut machine = Machine::start(&[Task::new(9, 2, 5); 5], 2).expect("a start");
    for number in [1, 3, 4] {
        machine.release(number, 2).expect("a release");
    }
    for (cores, ran, runners) in [
        (2, 0b101, 2),
        (3, 0b1101, 3),
        (4, 0b1101, 3),
        (16, 0b1101, 3),
    ] {
        let slot = machine.clone().slot(cores).expect("a slot");
        assert_eq!((slot.ran, slot.runners), (ran, runners), "k = {cores}");
    }
}

// Who of two jobs, each as left and budget, runs on 1 core: also at numbers that
// no script is long enough to reach.
#[test]
fn precedence_of_two_jobs() {
    let most = 1_000_000;
    let cases = [
        // Urgent before not urgent, whatever left and budget are.
        ((2, 1), (most, most), 2),
        ((most, most), (2, 1), 1),
        // Then the smaller left, urgent or not, against the largest budgets.
        ((2, most), (1, 1), 2),
        ((most, most), (999_999, 999_999), 2),
        ((most, 999_999), (999_999, 1), 2),
        // Then the larger budget, urgent or not.
        ((1, 999_999), (1, most), 2),
        ((1, most), (1, 1), 1),
        ((most, 1), (most, 999_999), 2),
        ((3, 2), (3, 1), 1),
        // Then the lower number.
        ((1, most), (1, most), 1),
        ((most, 1), (most, 1), 1),
    ];
    for (one, other, runner) in cases {
        let jobs = [one, other].map(|(left, budget)| job(true, left, budget, most));
        let mut machine = Machine {
            table: vec![Task::new(most, most, most); 2],
            cores: 1,
            jobs: jobs.to_vec(),
            offered: None,
        };
        let slot = machine.slot(1).expect("a slot");
        assert_eq!(slot.ran, runner, "{one:?} and {other:?}");
    }
}

// How often each answer to a release with this need comes, over every record from 0 to
// one above each limit: 616 of them.
fn answers_to_releases(need: u32) -> BTreeMap<Option<u32>, u32> {
    let mut answers = BTreeMap::new();
    for record in 0..2 * 7 * 4 * 11 {
        let (open, left) = (record % 2 == 1, record / 2 % 7);
        let (budget, gap) = (record / 14 % 4, record / 56);
        let refusal = machine(job(open, left, budget, gap)).release(1, need).err();
        let number = refusal.map(|refusal| refusal.number);
        *answers.entry(number).or_insert(0) += 1;
    }
    answers
}

// Sound are 10 closed ones, one of them due, and 2 * (9 + 8 + 7 + 6 + 5) open ones, none
// due. A need outside 1 to C, 2, is refused by 15 of all of them.
#[test]
fn releases_of_every_record() {
    let unsound = (Some(0), 616 - 10 - 70);
    let accepted = [(None, 1), unsound, (Some(9), 9 + 70)];
    let refused = [unsound, (Some(15), 10 + 70)];
    for need in [1, 2] {
        assert_eq!(answers_to_releases(need), BTreeMap::from(accepted));
    }
    for need in [0, 3, 5, 9, 256 + 1, 65_536 + 2, (1 << 31) + 1, u32::MAX] {
        assert_eq!(answers_to_releases(need), BTreeMap::from(refused));
    }
}

// Budget e, left D, gap T, and the core stays. Number 15 leaves the machine.
#[test]
fn the_record_after_a_release() {
    let before = machine(on_core(CLOSED, 3));
    for need in [1, 2] {
        let mut after = before.clone();
        assert_eq!(after.release(1, need), Ok(()));
        assert_eq!(after.jobs, [on_core(job(true, 5, need, 9), 3)]);
    }
    for need in [0, 3, u32::MAX] {
        let mut after = before.clone();
        assert_eq!(after.release(1, need), Err(Refusal::whole(15)));
        assert_eq!(after, before);
    }
}

// Number 0 for a held task that an offer would refuse by 5, by 13 and by 12. One that it
// would take is sound: 5 5 5 beside 9 2 5 on 2 cores, and a light one beside 31 tasks.
#[test]
fn number_0_for_a_held_task() {
    let holding = |cores: u32, task: Task| Machine {
        cores,
        offered: Some(task),
        ..machine(OPEN)
    };
    for task in [(9, 0, 5), (9, 6, 5), (4, 2, 5), (1_000_001, 2, 5)] {
        let (period, budget, deadline) = task;
        let unsound = holding(2, Task::new(period, budget, deadline));
        assert_eq!(refusals(&unsound), [Some(0); 5], "{task:?}");
    }
    assert_eq!(refusals(&holding(1, Task::new(5, 5, 5))), [Some(0); 5]);
    let sound = [Some(8), Some(8), Some(14), Some(5), None];
    assert_eq!(refusals(&holding(2, Task::new(5, 5, 5))), sound);
    let light = Task::new(1_000, 1, 1_000);
    let beside_31 = [Some(15), Some(11), Some(14), Some(5), None];
    for (tasks, expected) in [(31, beside_31), (32, [Some(0); 5])] {
        let mut wide = Machine::start(&vec![light; tasks], 16).expect("a start");
        wide.offered = Some(light);
        assert_eq!(refusals(&wide), expected, "{tasks} tasks");
    }
}

#[test]
fn refusals_of_an_offer_in_their_order() {
    let light = Task::new(1_000, 1, 1_000);
    let mut full = Machine::start(&[light; 32], 16).expect("a start");
    let before = full.clone();
    assert_eq!(full.offer(Task::new(4, 5, 4)), Err(Refusal::whole(5)));
    assert_eq!(full.offer(Task::new(4, 4, 4)), Err(Refusal::whole(12)));
    assert_eq!(full, before);
    let mut heavy = Machine::start(&[Task::new(5, 5, 5)], 1).expect("a start");
    let before = heavy.clone();
    assert_eq!(heavy.offer(Task::new(5, 5, 6)), Err(Refusal::whole(5)));
    assert_eq!(heavy.offer(Task::new(5, 5, 5)), Err(Refusal::whole(13)));
    assert_eq!(heavy.commit(), Err(Refusal::whole(17)));
    assert_eq!(heavy, before);
}

// An accepted offer changes what is held and nothing else, a refused one nothing at all,
// and a commit adds the task at the end: closed, its gap 0, without a core.
#[test]
fn the_machine_after_offers_and_a_commit() {
    let (one, other) = (Task::new(20, 1, 20), Task::new(30, 2, 30));
    let before = machine(on_core(OPEN, 3));
    let mut after = before.clone();
    for task in [one, other] {
        assert_eq!(after.offer(task), Ok(()));
        let holding = Machine {
            offered: Some(task),
            ..before.clone()
        };
        assert_eq!(after, holding);
        for refused in [Task::new(9, 6, 5), Task::new(5, 5, 5)] {
            assert!(after.offer(refused).is_err());
            assert_eq!(after, holding);
        }
    }
    assert_eq!(after.commit(), Ok(()));
    assert_eq!(after.table, [before.table[0], other]);
    assert_eq!(after.jobs, [on_core(OPEN, 3), CLOSED]);
    assert_eq!((after.cores, after.offered), (1, None));
}

// A start refuses what judging refuses, and takes refused tables.
#[test]
fn starts() {
    let task = Task::new(5, 5, 5);
    assert_eq!(Machine::start(&[], 0).err(), Some(Refusal::whole(6)));
    assert_eq!(
        Machine::start(&[task; 33], 0).err(),
        Some(Refusal::at(3, 33))
    );
    assert_eq!(Machine::start(&[task], 0).err(), Some(Refusal::whole(7)));
    let machine = Machine::start(&[task; 2], 1).expect("a start on a refused table");
    assert_eq!(machine.jobs, [CLOSED; 2]);
    assert_eq!(machine.offered, None);
}

// The budget of a job that closes in its last slot is 0: finished, not late.
#[test]
fn the_four_steps_of_a_slot() {
    let mut machine = machine(job(true, 1, 1, 5));
    let slot = machine.slot(1).expect("a slot");
    assert_eq!((slot.ran, slot.finished, slot.late), (1, 1, 0));
    assert_eq!(machine.jobs, [on_core(job(false, 0, 0, 4), 1)]);
}
