//! Document 02, change 6, on the model by itself: a round worked out by hand, and what
//! must be true of the rounds of every table, on generated ones.

use edzl_tests::random::Random;
use edzl_tests::settings::{SEED, number};
use edzl_tests::slack::{Round, admits, judge, round, rounds, rounds_made};
use edzl_tests::tasks::{MOST_CORES, MOST_TASKS, Refusal, Task};
use edzl_tests::window::{self, interference, spare};
use edzl_tests::wrong::RIGHT;
use edzl_tests::{slow, tables};

const TABLES: u64 = 3_000;

// Near the edges of both tests, and near 64 rounds.
fn table(seed: u64, index: u64) -> (Vec<Task>, u32) {
    let mut random = Random::new(seed, index);
    let table = match random.below(4) {
        0 => tables::valid(&mut random),
        1 | 2 => tables::near_slack_edge(&mut random),
        _ => slow::table(&mut random),
    };
    let tasks = u32::try_from(table.len()).expect("at most 32 tasks");
    let cores = random.between(1, tasks.min(MOST_CORES));
    (table, cores)
}

fn for_each_table(check: impl Fn(&[Task], u32)) {
    let seed = number("SEED", SEED);
    for index in 0..number("TABLES", TABLES) {
        let (table, cores) = table(seed, index);
        check(&table, cores);
    }
}

// Document 002's four tasks on 2 cores. Round 1 has the window test's sums 3, 3, 11, 10
// against 2, 2, 12, 10: only task 3 does not reach, and 6 − 11/2, rounded down, is 1.
// In round 2 task 4 sees task 3 in a window of 7, not 8: 4 + 4 + 1, and 5 − 9/2 is 1.
#[test]
fn rounds_by_hand() {
    let table = [
        Task::new(2, 1, 2),
        Task::new(2, 1, 2),
        Task::new(7, 1, 7),
        Task::new(8, 3, 8),
    ];
    let expected = [
        ([3, 3, 11, 10], [0, 0, 1, 0]),
        ([3, 3, 11, 9], [0, 0, 1, 1]),
        ([3, 3, 11, 9], [0, 0, 1, 1]),
    ];
    let expected = expected.map(|(sums, slacks)| Round {
        sums: sums.to_vec(),
        slacks: slacks.to_vec(),
    });
    assert_eq!(rounds(&table, 2), Ok(expected.to_vec()));
    let judged = judge(&table, 2).expect("a verdict");
    assert_eq!((judged.rounds, judged.admitted), (3, true));
    assert_eq!(judged.sums, [3, 3, 11, 9]);
}

// A slack above a deadline leaves a window of 0, in which nothing interferes.
#[test]
fn a_window_is_never_below_0() {
    let table = [Task::new(3, 1, 2), Task::new(9, 1, 9)];
    let Round { sums, slacks } = round(&table, 1, &[1, 8]);
    assert_eq!(sums, [0, 3]);
    assert_eq!(slacks, [1, 5]);
    assert_eq!(interference(&table[1], 0), 0);
}

// One task has no sum: with spare it takes two rounds to see that its slack stays.
#[test]
fn one_task() {
    for (task, made) in [(Task::new(5, 5, 5), 1), (Task::new(5, 2, 4), 2)] {
        let judged = judge(&[task], 1).expect("a verdict");
        assert_eq!((judged.rounds, judged.admitted), (made, true));
        assert_eq!(judged.sums, [0]);
    }
}

// The refusals of judging, in their order and with their places; 0 rounds, not admitted.
#[test]
fn refusals() {
    let (bad, good) = (Task::new(4, 5, 4), Task::new(4, 1, 4));
    let refused: [(&[Task], u32, Refusal); 6] = [
        (&[bad; 33], 0, Refusal::at(3, 33)),
        (&[], 0, Refusal::whole(6)),
        (&[good, bad, bad], 0, Refusal::at(5, 2)),
        (&[good; 32], 0, Refusal::whole(7)),
        (&[good; 32], 17, Refusal::whole(7)),
        (&[good], u32::MAX, Refusal::whole(7)),
    ];
    for (table, cores, refusal) in refused {
        assert_eq!(judge(table, cores), Err(refusal));
        assert_eq!(rounds_made(table, cores), 0);
        assert!(!admits(table, cores));
    }
    assert_eq!(rounds_made(&[good; 32], 16), 2);
}

// From round to round no slack falls and no sum rises, and no slack is above the spare.
#[test]
fn slacks_only_grow() {
    for_each_table(|table, cores| {
        let rounds = rounds(table, cores).expect("a verdict");
        for pair in rounds.windows(2) {
            let (before, after) = (&pair[0], &pair[1]);
            for k in 0..table.len() {
                assert!(
                    before.slacks[k] <= after.slacks[k],
                    "{table:?}, m = {cores}"
                );
                assert!(before.sums[k] >= after.sums[k], "{table:?}, m = {cores}");
            }
        }
        let last = &rounds[rounds.len() - 1];
        let most = table.iter().map(spare);
        let within = last
            .slacks
            .iter()
            .zip(most)
            .all(|(slack, spare)| *slack <= spare);
        assert!(within, "{table:?}, m = {cores}");
    });
}

// 1 to 64 rounds: all but the last change a slack, and the last does not unless it is
// the 64th.
#[test]
fn rounds_end_when_no_slack_changes() {
    for_each_table(|table, cores| {
        let rounds = rounds(table, cores).expect("a verdict");
        let mut before = vec![0; table.len()];
        for (made, round) in (1..).zip(&rounds) {
            let changes = round.slacks != before;
            let is_last = made == rounds.len();
            assert!(changes != is_last || made == 64, "{table:?}, m = {cores}");
            before.clone_from(&round.slacks);
        }
        assert!((1..=64).contains(&rounds.len()));
    });
}

// The first sums are the window test's.
#[test]
fn the_first_round_is_the_window_test() {
    for_each_table(|table, cores| {
        let rounds = rounds(table, cores).expect("a verdict");
        let sums: Vec<u64> = (0..table.len()).map(|k| window::sum(table, k)).collect();
        assert_eq!(rounds[0].sums, sums, "{table:?}, m = {cores}");
    });
}

#[test]
fn what_the_window_test_admits() {
    for_each_table(|table, cores| {
        let verdict = window::judge(table, cores).expect("a verdict");
        let admitted = admits(table, cores);
        assert!(admitted || !verdict.admitted, "{table:?}, m = {cores}");
    });
}

// With at most m + 1 tasks the tests agree: if one sum does not reach at first, at most
// m do, and if all reach, every slack stays 0.
#[test]
fn up_to_one_task_more_than_cores() {
    for_each_table(|table, _| {
        let fewer = u32::try_from(table.len() - 1).expect("at most 32 tasks");
        for cores in fewer.max(1)..=MOST_CORES {
            let verdict = window::judge(table, cores).expect("a verdict");
            let admitted = admits(table, cores);
            assert_eq!(admitted, verdict.admitted, "{table:?}, m = {cores}");
        }
    });
}

// The slacks of a table after so many rounds: past the last they stay.
fn after(rounds: &[Round], made: usize) -> &[u64] {
    &rounds[made.min(rounds.len()) - 1].slacks
}

// A task more leaves no other a larger slack in any round, and admits nothing new.
#[test]
fn a_task_more() {
    for_each_table(|table, cores| {
        if table.len() == 1 {
            return;
        }
        let fewer = &table[..table.len() - 1];
        let [less, more] = [fewer, table].map(|table| rounds(table, cores).expect("a verdict"));
        for made in 1..=less.len().max(more.len()) {
            let pairs = after(&less, made).iter().zip(after(&more, made));
            let falls = pairs.clone().all(|(less, more)| less >= more);
            assert!(falls, "{table:?}, m = {cores}, round {made}");
        }
        let admitted = admits(fewer, cores) || !admits(table, cores);
        assert!(admitted, "{table:?}, m = {cores}");
    });
}

// The order of the tasks plays no part.
#[test]
fn another_order() {
    for_each_table(|table, cores| {
        let mut turned = table.to_vec();
        turned.reverse();
        let answer = |table: &[Task]| {
            let judged = judge(table, cores).expect("a verdict");
            (judged.rounds, judged.admitted)
        };
        assert_eq!(answer(table), answer(&turned), "{table:?}, m = {cores}");
    });
}

// The same test in another form: one list of slacks, and a count in each round.
#[test]
fn the_other_form() {
    for_each_table(|table, cores| {
        let judged = judge(table, cores).expect("a verdict");
        let answer = RIGHT.judge(table, cores);
        assert_eq!(
            answer,
            (judged.rounds, judged.admitted),
            "{table:?}, m = {cores}"
        );
    });
}

// Sums of 32 tasks of the longest period are held whole.
#[test]
fn the_largest_sums() {
    let longest = Task::new(1_000_000, 500_000, 1_000_000);
    let judged = judge(&[longest; MOST_TASKS], 1).expect("a verdict");
    assert_eq!(judged.sums, [15_500_000; MOST_TASKS]);
    assert_eq!((judged.rounds, judged.admitted), (1, false));
}
