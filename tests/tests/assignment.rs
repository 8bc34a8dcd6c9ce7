//! The simulated machine's cores by itself: the sentences of document 02, change 4,
//! each as a condition on every slot of a small machine, what is left when the cores
//! are dropped, and the events that comparisons count.

use edzl_tests::assignment::met;
use edzl_tests::machine::{Job, Machine, Slot};
use edzl_tests::probe::{HandMade, Probe};
use edzl_tests::probes::group;
use edzl_tests::script::{Answer, Call};
use edzl_tests::seen::Seen;
use edzl_tests::sessions::script;
use edzl_tests::settings;
use edzl_tests::tasks::Task;

use Call::{Finish, Release};

const TASKS: usize = 4;

// The left of each task, and the tasks from 0 in precedence: none is urgent.
const LEFTS: [u32; TASKS] = [7, 4, 6, 5];
const ORDER: [usize; TASKS] = [1, 3, 2, 0];

// Four tasks on 1 core, of which those in the sum are open, with these cores.
fn machine(open: usize, cores: [u32; TASKS]) -> Machine {
    let job = |index: usize| match open >> index & 1 {
        1 => Job {
            open: true,
            left: LEFTS[index],
            budget: 2,
            gap: 9,
            core: cores[index],
        },
        _ => Job {
            core: cores[index],
            ..Job::default()
        },
    };
    Machine {
        table: vec![Task::new(9, 3, 8); TASKS],
        cores: 1,
        jobs: (0..TASKS).map(job).collect(),
        offered: None,
    }
}

// The tasks that run on k cores, from 0, in precedence.
fn runners(open: usize, k: u32) -> Vec<usize> {
    let open = ORDER.into_iter().filter(|index| open >> index & 1 == 1);
    open.take(usize::try_from(k).expect("a few cores"))
        .collect()
}

// The record is the answer, each runner has a core of its own among 1 to k, and
// nobody else has one.
fn check_each_runner(runners: &[usize], k: u32, slot: &Slot, after: &Machine) {
    let recorded: Vec<u32> = after.jobs.iter().map(|job| job.core).collect();
    assert_eq!(slot.assigned[..TASKS], recorded);
    assert_eq!(slot.assigned[TASKS..], [0; 32 - TASKS]);
    for (index, core) in recorded.iter().enumerate() {
        let own = recorded.iter().filter(|other| *other == core).count() == 1;
        match runners.contains(&index) {
            true => assert!((1..=k).contains(core) && own, "task {}", index + 1),
            false => assert_eq!(*core, 0, "task {}", index + 1),
        }
    }
}

// Who runs again with a core among 1 to k keeps it. The others, in precedence, have
// rising cores, and below each of these every core is in use.
fn check_rule(runners: &[usize], k: u32, before: [u32; TASKS], slot: &Slot) {
    let core = |index: usize| slot.assigned[index];
    let mut taken = Vec::new();
    for index in runners {
        match (1..=k).contains(&before[*index]) {
            true => assert_eq!(core(*index), before[*index], "task {}", index + 1),
            false => taken.push(core(*index)),
        }
    }
    assert!(taken.is_sorted(), "{taken:?}");
    let used: Vec<u32> = runners.iter().map(|index| core(*index)).collect();
    let highest = taken.last().copied().unwrap_or(1);
    assert!((1..highest).all(|core| used.contains(&core)), "{used:?}");
}

// Every record of cores 0 to 5, every choice of open tasks, k of 1 to 5.
#[test]
fn every_slot_of_four_tasks() {
    let (mut sound, mut unsound) = (0, 0);
    for record in 0..6u32.pow(4) {
        let cores = [0, 1, 2, 3].map(|place| record / 6u32.pow(place) % 6);
        let shares = |core: &u32| cores.iter().filter(|other| *other == core).count() > 1;
        let twice = cores.iter().any(|core| *core != 0 && shares(core));
        for (open, k) in (0..16).flat_map(|open| (1..=5).map(move |k| (open, k))) {
            let mut after = machine(open, cores);
            let Ok(slot) = after.slot(k) else {
                assert!(twice, "{cores:?}");
                unsound += 1;
                continue;
            };
            assert!(!twice, "{cores:?}");
            let runners = runners(open, k);
            check_each_runner(&runners, k, &slot, &after);
            check_rule(&runners, k, cores, &slot);
            check_dropped(open, k, &slot, &after);
            sound += 1;
        }
    }
    // Without a core twice: 1 + 4 * 5 + 6 * 20 + 4 * 60 + 120 records.
    assert_eq!((sound, unsound), (501 * 80, (1_296 - 501) * 80));
}

// Without cores before the slot: the same but for the cores.
fn check_dropped(open: usize, k: u32, slot: &Slot, after: &Machine) {
    let mut dropped = machine(open, [0; TASKS]);
    let other = dropped.slot(k).expect("a slot");
    assert_eq!(
        without_cores(Answer::Ran(other)),
        without_cores(Answer::Ran(*slot))
    );
    let bare = |job: &Job| Job { core: 0, ..*job };
    assert!(
        after
            .jobs
            .iter()
            .map(bare)
            .eq(dropped.jobs.iter().map(bare))
    );
}

fn without_cores(answer: Answer) -> Answer {
    match answer {
        Answer::Ran(slot) => Answer::Ran(Slot {
            assigned: [0; 32],
            ..slot
        }),
        other => other,
    }
}

// The machine with no core recorded for any task, and those past the count.
fn dropped(machine: &HandMade) -> HandMade {
    let mut machine = machine.clone();
    for entry in &mut machine.entries {
        entry.job.core = 0;
    }
    machine
}

// On generated sound machines each call does the same without the cores.
#[test]
fn calls_on_machines_without_their_cores() {
    let seed = settings::number("SEED", settings::SEED);
    let mut compared = 0;
    for probe in (0..40).flat_map(|index| group(seed, index)) {
        let seen = Seen::new(&probe);
        if !seen.faults.is_empty() {
            continue;
        }
        let bare = Probe {
            machine: dropped(&probe.machine),
            call: probe.call,
        };
        let (answer, after) = bare.play();
        assert_eq!(
            without_cores(answer),
            without_cores(seen.answer),
            "{probe:?}"
        );
        assert_eq!(dropped(&after), dropped(&seen.after), "{probe:?}");
        compared += u64::from(bare.machine != probe.machine);
    }
    assert!(compared > 500, "only {compared} machines with cores");
}

// The times that each event is met in the slots of these calls.
fn check_met(table: &[Task], calls: &[Call], events: &[(&str, usize)]) {
    let names = met(&script(1, table, calls.to_vec()));
    for (event, times) in events {
        let found = names.iter().filter(|name| *name == event).count();
        assert_eq!(found, *times, "{event}");
    }
}

const SECOND: &str = "a keeper second in precedence, after one that takes";
const FIRST: &str = "a keeper first in precedence, before one that takes";
const ONE_PASS: &str = "cores that one pass over the runners would change";
const BY_NUMBER: &str = "cores that the number in place of precedence would change";
const ABOVE: &str = "a runner whose core is above k";
const TAKEN: &str = "the core of a task that does not run, taken";
const NEW_JOB: &str = "a new job on the core that its task keeps";
const NOBODY: &str = "nobody runs, and cores were recorded";

// Task 2 is released later and goes first; then it is finished, and task 3, with a
// later deadline, takes core 2, which task 2 had.
#[test]
fn events_of_keepers() {
    let table = [
        Task::new(20, 5, 10),
        Task::new(20, 5, 5),
        Task::new(30, 5, 25),
    ];
    let mut calls = vec![Release(1, 5), Call::Slot(2), Release(2, 5), Call::Slot(2)];
    calls.extend([Finish(2), Release(3, 5), Call::Slot(2)]);
    let events = [(SECOND, 1), (ONE_PASS, 1), (FIRST, 1), (TAKEN, 1)];
    check_met(&table, &calls, &events);
    check_met(&table, &calls, &[(BY_NUMBER, 0), (ABOVE, 0), (NEW_JOB, 0)]);
}

// Both at once: task 2 goes first and takes core 1, by number it would be core 2. Task 1
// has core 2, above k when it is alone on 1 core, and no core after a slot of nobody.
#[test]
fn events_of_others() {
    let table = [Task::new(20, 2, 10), Task::new(20, 1, 5)];
    let mut calls = vec![Release(1, 2), Release(2, 1), Call::Slot(2), Call::Slot(1)];
    calls.extend([Call::Slot(1), Call::Slot(0), Call::Slot(1)]);
    let events = [(BY_NUMBER, 1), (ABOVE, 1), (TAKEN, 1), (NOBODY, 1)];
    check_met(&table, &calls, &events);
    check_met(&table, &calls, &[(SECOND, 0), (ONE_PASS, 0), (FIRST, 0)]);
}

// Due again at once: a new job in slots 2 and 3, and not after the slot of nobody.
#[test]
fn events_of_new_jobs() {
    let mut calls = vec![Release(1, 1), Call::Slot(1), Release(1, 1), Call::Slot(1)];
    calls.extend([Release(1, 1), Call::Slot(1), Call::Slot(1), Release(1, 1)]);
    calls.push(Call::Slot(1));
    check_met(&[Task::new(1, 1, 1)], &calls, &[(NEW_JOB, 2), (NOBODY, 1)]);
}
