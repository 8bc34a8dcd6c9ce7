//! What accepted logs promise (document 02, change 11), by the simulated audit and from the
//! logs alone: over a table that the slack test admits no line has a late job, and each job
//! has its runs or a finish in time. Over other tables both must be broken somewhere, or
//! these checks would say nothing.

use edzl_tests::audit::{Audit, follow};
use edzl_tests::log::Log;
use edzl_tests::log_promise::{Kept, check};
use edzl_tests::logs::{Dispatcher, log};
use edzl_tests::random::Random;
use edzl_tests::{settings, slack, window};

const LOGS: u64 = 6_000;

// Of the logs so many must have what is counted.
const LEAST: u64 = 200;

// The late jobs of a log that is accepted.
fn late(log: &Log) -> u32 {
    let mut late = 0;
    let answer = follow(&log.input(), |_, slot| late += slot.late.count_ones());
    assert_eq!(answer, Audit::Accepted);
    late
}

// A log of each of the dispatchers in turn.
fn logs() -> impl Iterator<Item = Log> {
    let seed = settings::number("SEED", settings::SEED);
    (0..LOGS).map(move |index| {
        let mut random = Random::new(seed, index);
        let dispatchers = [Dispatcher::Own, Dispatcher::Foreign];
        let dispatcher = dispatchers[usize::from(index % 2 == 1)];
        log(&mut random, dispatcher)
    })
}

#[test]
fn admitted_tables_have_no_late_job() {
    let mut total = Kept::default();
    let mut by_slack_alone = 0;
    for log in logs().filter(|log| slack::admits(&log.table, log.cores)) {
        assert_eq!(late(&log), 0, "{log:?}");
        let kept = check(&log).unwrap_or_else(|job| panic!("{job} in {log:?}"));
        total.by_runs += kept.by_runs;
        total.by_finish += kept.by_finish;
        total.cut += kept.cut;
        by_slack_alone += u64::from(!window::admits(&log.table, log.cores));
    }
    assert!(total.by_runs >= LEAST, "{total:?}");
    assert!(total.by_finish >= LEAST, "{total:?}");
    assert!(total.cut >= LEAST, "{total:?}");
    assert!(by_slack_alone >= LEAST, "{by_slack_alone} logs");
}

#[test]
fn other_tables_have_late_jobs() {
    let refused = logs().filter(|log| !slack::admits(&log.table, log.cores));
    let (mut with_late, mut broken) = (0, 0);
    for log in refused {
        let is_late = late(&log) > 0;
        with_late += u64::from(is_late);
        broken += u64::from(check(&log).is_err());
        assert!(is_late || check(&log).is_ok(), "{log:?}");
    }
    assert!(with_late >= LEAST, "{with_late} logs");
    assert!(broken >= LEAST, "{broken} logs");
}
